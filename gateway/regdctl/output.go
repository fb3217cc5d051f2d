package main

import (
	"bytes"
	"encoding/json"
	"fmt"
	"io"
	"os"
	"strconv"
	"strings"
	"time"
	"unicode/utf8"

	"regd/gateway/book"
	"regd/gateway/document"
)

// show prints a result: as text, or the value as JSON or YAML. With the output `lines` the answers are printed already.
func (s *session) show(value any, text func() string) error {
	switch s.settings.output {
	case "json":
		printed, err := json.MarshalIndent(value, "", "  ")
		if err != nil {
			return err
		}
		return s.print(string(printed) + "\n")
	case "yaml":
		printed, err := yaml(value)
		if err != nil {
			return err
		}
		return s.print(printed)
	case "lines":
		return nil
	}
	return s.print(text())
}

// table returns rows as columns. The first row is the heading.
func table(rows [][]string) string {
	widths := make([]int, len(rows[0]))
	for _, row := range rows {
		for i, cell := range row {
			if width := utf8.RuneCountInString(cell); width > widths[i] {
				widths[i] = width
			}
		}
	}
	var out strings.Builder
	for _, row := range rows {
		var line strings.Builder
		for i, cell := range row {
			line.WriteString(cell + strings.Repeat(" ", widths[i]-utf8.RuneCountInString(cell)+2))
		}
		out.WriteString(strings.TrimRight(line.String(), " ") + "\n")
	}
	return out.String()
}

// entryTable returns entries as a table. Lifetimes have columns only if an entry has one.
func (s *session) entryTable(entries []book.Entry) string {
	hasTTL := false
	for _, e := range entries {
		hasTTL = hasTTL || e.X509TTL != 0 || e.JWTTTL != 0
	}
	heading := []string{"ENTRY ID", "SPIFFE ID", "PARENT ID", "SELECTORS", "REV", "EXPIRES",
		"FEDERATES WITH", "HINT"}
	if hasTTL {
		heading = append(heading, "X509 TTL", "JWT TTL")
	}
	rows := [][]string{heading}
	for _, e := range entries {
		row := []string{e.ID, s.short(e.Identity), s.short(e.Parent), strings.Join(e.Selectors, " "),
			number(e.Revision),
			expiryText(e.Expiry), orDash(strings.Join(e.Domains, " ")), orDash(printable(e.Hint))}
		if hasTTL {
			row = append(row, ttlText(e.X509TTL), ttlText(e.JWTTTL))
		}
		rows = append(rows, row)
	}
	return table(rows)
}

// printable returns a text of one line without control characters, which could change what a terminal shows.
func printable(text string) string {
	quoted := strconv.Quote(text)
	if quoted[1:len(quoted)-1] == text {
		return text
	}
	return quoted
}

func number(n uint64) string { return strconv.FormatUint(n, 10) }

func expiryText(expiry uint64) string {
	if expiry == 0 {
		return "never"
	}
	if expiry > 1<<40 {
		return number(expiry)
	}
	return time.Unix(int64(expiry), 0).UTC().Format(time.RFC3339)
}

func ttlText(seconds uint64) string {
	if seconds == 0 {
		return "default"
	}
	return number(seconds) + "s"
}

func (s *session) agentTable(agents []book.Agent) string {
	rows := [][]string{{"SPIFFE ID", "SELECTORS"}}
	for _, a := range agents {
		rows = append(rows, []string{s.short(a.ID), orDash(strings.Join(a.Selectors, " "))})
	}
	return table(rows)
}

func bundleTable(bundles []book.Bundle) string {
	rows := [][]string{{"TRUST DOMAIN", "SEQUENCE", "BYTES"}}
	for _, b := range bundles {
		bytes := number(uint64(len(b.Text)))
		if b.Text == "" {
			bytes = "-"
		}
		rows = append(rows, []string{b.Domain, number(b.Sequence), bytes})
	}
	return table(rows)
}

// counted returns a number with its noun.
func counted(n int, one, more string) string {
	if n == 1 {
		return "1 " + one
	}
	return strconv.Itoa(n) + " " + more
}

// yaml returns a value as YAML, with the keys of its JSON in their order.
func yaml(value any) (string, error) {
	text, err := json.Marshal(value)
	if err != nil {
		return "", err
	}
	decoder := json.NewDecoder(bytes.NewReader(text))
	decoder.UseNumber()
	var read any // whose keys are printed in their order
	if err := decoder.Decode(&read); err != nil {
		return "", err
	}
	node, err := document.FromValue(read)
	if err != nil {
		return "", err
	}
	return node.YAML(), nil
}

// progress prints how far long work is, on a terminal.
type progress struct {
	out    io.Writer // nil if standard error is no terminal
	begin  time.Time
	last   time.Time
	isOpen bool
}

func (p *progress) start(errs io.Writer) {
	p.begin = time.Now()
	file, isFile := errs.(*os.File)
	if !isFile {
		return
	}
	if isTerminal(file) {
		p.out = file
	}
}

// isDue returns true at most five times a second, and not in the first second.
func (p *progress) isDue() bool {
	now := time.Now()
	if p.out == nil || now.Sub(p.begin) < time.Second || now.Sub(p.last) < 200*time.Millisecond {
		return false
	}
	p.last, p.isOpen = now, true
	return true
}

// tell prints that some of all operations are done.
func (p *progress) tell(done, all, batch, batches int) {
	if done > 0 && p.isDue() {
		left := time.Duration(float64(time.Since(p.begin)) * float64(all-done) / float64(done)).Round(
			time.Second)
		fmt.Fprintf(p.out, "\r\033[K%d of %d operations, batch %d of %d, %s left", done, all, batch,
			batches, left)
	}
}

// read prints how many entries were read.
func (p *progress) read(entries int) {
	if p.isDue() {
		fmt.Fprintf(p.out, "\r\033[K%d entries read", entries)
	}
}

// clear removes the line of progress.
func (p *progress) clear() {
	if p.isOpen {
		p.isOpen = false
		fmt.Fprint(p.out, "\r\033[K")
	}
}
