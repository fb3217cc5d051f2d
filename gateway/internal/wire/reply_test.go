package wire

import (
	"bufio"
	"io"
	"runtime"
	"strings"
	"testing"
)

func TestAppendReply(t *testing.T) {
	for _, c := range []struct{ reply, want string }{
		{`{"call":99,"place":3,"replies":[],"result":"committed"}`,
			`{"call":5,"place":3,"replies":[],"result":"committed"}`},
		{`{"call":99,"code":"W1","place":3,"result":"refused"}`,
			`{"call":5,"code":"W1","place":3,"result":"refused"}`},
		{`{"code":"L2","line":99}`, `{"code":"L2","line":8}`},
		{`{"code":"L5","field":"zz","line":99,"op":0}`, `{"code":"L5","field":"zz","line":8,"op":0}`},
		{`{"code":"L5","field":",\"line\":7","line":99}`, `{"code":"L5","field":",\"line\":7","line":8}`},
		{string(Refusal("G1")), `{"code":"G1","line":8}`},
		{string(Refused("O9", 12)), `{"call":5,"code":"O9","place":12,"result":"refused"}`},
		{string(Repeated(Tail([]byte(`{"call":1,"place":3,"replies":[],"result":"committed"}`)))),
			`{"call":5,"place":3,"replies":[],"result":"repeated"}`},
	} {
		if got := string(AppendReply(nil, []byte(c.reply), 5, 8)); got != c.want+"\n" {
			t.Errorf("%s: got %s", c.reply, got)
		}
	}
}

func TestReplyParts(t *testing.T) {
	committed := []byte(`{"call":9,"place":31,"replies":[{"bundle":{"text":"\"place\":7"}}],"result":"committed"}`)
	if Place(committed) != 31 || !IsCommitted(committed) || IsRefusal(committed) {
		t.Error("committed")
	}
	early := []byte(`{"call":9,"code":"W1","place":31,"result":"refused"}`)
	if Code(early) != "W1" || IsCommitted(early) || Code(committed) != "" {
		t.Error("early")
	}
	full := []byte(`{"code":"L6","line":9}`)
	if Code(full) != "L6" || !IsRefusal(full) || Place(full) != 0 {
		t.Error("full")
	}
	for line, want := range map[string]uint64{
		`{"ops":[],"after":7}`: 7, `{"ops":[],"after": 7}`: 7, `{"ops":[],"after" :7}`: 7,
		`{"after" : 7,"ops":[]}`: 7, "{\"after\"\t:\t7}": 7, `{"after":x}`: 0,
		`{"after":3,"ops":[],"after":7}`: 7, `{"ops":[{"op":"show","hint":"after"}],"after":7}`: 7,
		`{"ops":["after",5],"after":7}`: 7, `"after"`: 0, `"after":`: 0,
	} {
		if got := After([]byte(line)); got != want {
			t.Errorf("%s: got %d", line, got)
		}
	}
	if After([]byte(`{"ops":[],"after": 7}`)) != 7 || After([]byte(`{"ops":[]}`)) != 0 ||
		After([]byte(`{"after":18446744073709551615`)) != 1<<64-1 {
		t.Error("after")
	}
}

func TestReadLine(t *testing.T) {
	long := strings.Repeat("x", MaxLine)
	for _, c := range []struct {
		name, text string
		want       []string // lines, or codes after a !
	}{
		{"empty", "", nil},
		{"two", "a\nb\r\n", []string{"a", "b\r"}},
		{"empty lines", "\n\n", []string{"", ""}},
		{"no line feed", "a\nb", []string{"a", "!L3"}},
		{"the longest", long + "\na\n", []string{long, "a"}},
		{"too long", long + "x\na\n", []string{"!L1", "a"}},
		{"too long with a carriage return", long + "\r\n", []string{"!L1"}},
		{"much too long", long + long + long + "\na\n", []string{"!L1", "a"}},
		{"too long without a line feed", long + "x", []string{"!L1"}},
		{"the longest without a line feed", long, []string{"!L3"}},
	} {
		for _, size := range []int{16, 4096} {
			in, got := bufio.NewReaderSize(strings.NewReader(c.text), size), []string{}
			for {
				line, code, err := ReadLine(in, MaxLine, func() bool { return true })
				if err == io.EOF {
					break
				} else if err != nil {
					t.Fatal(err)
				}
				if code != "" {
					line = []byte("!" + code)
				}
				got = append(got, string(line))
			}
			if strings.Join(got, "|") != strings.Join(c.want, "|") {
				t.Errorf("%s: got %.200q", c.name, got)
			}
		}
	}
}

// TestReadLineBounds reads lines with a smaller limit, and such that outgrow the buffer, with and without room.
func TestReadLineBounds(t *testing.T) {
	long := strings.Repeat("x", 100)
	for _, c := range []struct {
		name, text string
		hasRoom    bool
		line, code string
		asked      int
	}{
		{"a short line", "a\n", false, "a", "", 0},
		{"one that fills the buffer", long[:15] + "\n", false, long[:15], "", 0},
		{"a long line", long[:50] + "\n", true, long[:50], "", 1},
		{"the longest line", long[:60] + "\n", true, long[:60], "", 1},
		{"a line that is too long", long[:61] + "\n", true, "", TooLong, 1},
		{"a long line without room", long[:50] + "\n", false, "", Busy, 1},
		{"one without its end", long[:50], false, "", "L3", 1},
	} {
		asked := 0
		in := bufio.NewReaderSize(strings.NewReader(c.text), 16)
		line, code, err := ReadLine(in, 60, func() bool { asked++; return c.hasRoom })
		if string(line) != c.line || code != c.code || err != nil || asked != c.asked {
			t.Errorf("%s: got %s, %s, %v, asked %d times", c.name, line, code, err, asked)
		}
	}
}

// TestReadLongReply reads a line that is longer than those of callers may be.
func TestReadLongReply(t *testing.T) {
	long := strings.Repeat("x", 2*MaxLine)
	in := bufio.NewReader(strings.NewReader(long + "\n"))
	line, code, err := ReadLine(in, 1<<62, func() bool { return true })
	if string(line) != long || code != "" || err != nil {
		t.Errorf("got %d bytes, %s, %v", len(line), code, err)
	}
}

// endless is an input without a line feed, of some bytes.
type endless struct{ left int }

func (e *endless) Read(to []byte) (int, error) {
	if e.left -= len(to); e.left < 0 {
		return 0, io.EOF
	}
	return len(to), nil
}

// TestReadLineMemory checks that a line that is too long takes no more memory than the longest one.
func TestReadLineMemory(t *testing.T) {
	var before, after runtime.MemStats
	runtime.ReadMemStats(&before)
	_, code, err := ReadLine(bufio.NewReader(&endless{256 * MaxLine}), MaxLine, func() bool { return true })
	runtime.ReadMemStats(&after)
	if grown := after.TotalAlloc - before.TotalAlloc; code != "L1" || err != nil || grown > 16*MaxLine {
		t.Errorf("got %s, %v, %d bytes", code, err, grown)
	}
}

func TestReadLineError(t *testing.T) {
	in := bufio.NewReader(io.MultiReader(strings.NewReader("a"), failing{}))
	if _, code, err := ReadLine(in, MaxLine, nil); err != io.ErrUnexpectedEOF || code != "" {
		t.Errorf("got %q, %v", code, err)
	}
}

type failing struct{}

func (failing) Read([]byte) (int, error) { return 0, io.ErrUnexpectedEOF }
