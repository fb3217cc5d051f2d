package etcd

import (
	"net"
	"syscall"
	"time"
)

// unreachableTime is how long a member may leave what it was sent without an acknowledgement of its kernel. A member
// that is slow acknowledges, and has the time of the request.
const unreachableTime = 3 * time.Second

// tcpUserTimeout is the option of the kernel for that.
const tcpUserTimeout = 0x12

// Dialer opens connections to members of etcd. A request to one that can't be reached fails early, so that there is
// time to send it to another one.
var Dialer = &net.Dialer{Timeout: unreachableTime, Control: limitUnreachable}

// limitUnreachable ends a connection whose other side can't be reached.
func limitUnreachable(_, _ string, raw syscall.RawConn) error {
	var failed error
	err := raw.Control(func(descriptor uintptr) {
		failed = syscall.SetsockoptInt(int(descriptor), syscall.IPPROTO_TCP, tcpUserTimeout,
			int(unreachableTime.Milliseconds()))
	})
	if err != nil {
		return err
	}
	return failed
}
