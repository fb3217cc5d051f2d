// Package clocktest moves the clock of one process, for tests. Programs in Go ask the kernel's vDSO for the time, so a
// library that is loaded before them doesn't reach them. Move replaces the code of the vDSO in the memory of the
// process. The time since the start of the machine, which Go uses for durations, stays right.
package clocktest

import (
	"bytes"
	"debug/elf"
	"encoding/binary"
	"fmt"
	"os"
	"runtime"
	"strings"
	"time"
)

// IsPossible is true on machines for which Move has the code.
const IsPossible = runtime.GOOS == "linux" && runtime.GOARCH == "amd64"

// Move makes the clock of a process differ from that of the machine. The caller has to be allowed to trace the process,
// such as a child.
func Move(pid int, by time.Duration) error {
	memory, err := os.OpenFile(fmt.Sprintf("/proc/%d/mem", pid), os.O_RDWR, 0)
	if err != nil {
		return err
	}
	defer memory.Close()
	begin, end, err := vdso(pid)
	if err != nil {
		return err
	}
	image := make([]byte, end-begin)
	if _, err := memory.ReadAt(image, begin); err != nil {
		return err
	}
	offset, err := function(image)
	if err != nil {
		return err
	}
	_, err = memory.WriteAt(code(int64(by/time.Second)), begin+offset)
	return err
}

// vdso returns where the vDSO is in the memory of a process.
func vdso(pid int) (begin, end int64, err error) {
	maps, err := os.ReadFile(fmt.Sprintf("/proc/%d/maps", pid))
	if err != nil {
		return 0, 0, err
	}
	for _, line := range strings.Split(string(maps), "\n") {
		if strings.HasSuffix(line, "[vdso]") {
			_, err := fmt.Sscanf(line, "%x-%x", &begin, &end)
			return begin, end, err
		}
	}
	return 0, 0, fmt.Errorf("process %d has no vDSO", pid)
}

// function returns where clock_gettime is in the image of a vDSO.
func function(image []byte) (int64, error) {
	file, err := elf.NewFile(bytes.NewReader(image))
	if err != nil {
		return 0, err
	}
	symbols, err := file.DynamicSymbols()
	for _, symbol := range symbols {
		if symbol.Name == "__vdso_clock_gettime" {
			return int64(symbol.Value), nil
		}
	}
	return 0, fmt.Errorf("the vDSO has no clock_gettime: %v", err)
}

// code returns a function that asks the kernel for the time of a clock, and adds some seconds if that is the clock of
// the day.
func code(seconds int64) []byte {
	made := []byte{
		0xb8, 0xe4, 0, 0, 0, // mov eax, 228: the number of the system call
		0x0f, 0x05, // syscall
		0x85, 0xff, // test edi, edi: the clock of the day is 0
		0x75, 0x0d, // jne to ret
		0x48, 0xb9, // mov rcx, seconds
	}
	made = binary.LittleEndian.AppendUint64(made, uint64(seconds))
	return append(made, 0x48, 0x01, 0x0e, // add [rsi], rcx
		0xc3) // ret
}
