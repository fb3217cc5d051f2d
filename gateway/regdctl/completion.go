package main

import (
	"context"
	"flag"
	"io"
	"strings"
	"time"

	"regd/gateway/book"
	"regd/gateway/client"
)

// completeWord is the command that the completion scripts call. Its arguments are the words so far, the last one
// included.
const completeWord = "__complete"

var completionScripts = map[string]string{
	"bash": `_regdctl() {
    local line="${COMP_LINE:0:COMP_POINT}" words word
    read -ra words <<< "$line"
    [[ $line == *[[:space:]] ]] && words+=("")
    word="${words[-1]}"
    mapfile -t COMPREPLY < <("${words[0]}" __complete "${words[@]:1}" 2>/dev/null)
    if [[ $word == *:* ]]; then # bash ends a word at a colon
        COMPREPLY=("${COMPREPLY[@]#"${word%"${word##*:}"}"}")
    fi
}
complete -o bashdefault -o default -F _regdctl regdctl
`,
	"zsh": `#compdef regdctl
_regdctl() {
    local -a found
    found=("${(@f)$("${words[1]}" __complete "${(@)words[2,CURRENT]}" 2>/dev/null)}")
    if [[ -n "${found[1]}" ]]; then
        compadd -- "${found[@]}"
    else
        _files
    fi
}
if [[ "${funcstack[1]}" == _regdctl ]]; then
    _regdctl "$@"
else
    compdef _regdctl regdctl
fi
`,
	"fish": `function __regdctl_complete
    set -l words (commandline -opc) (commandline -ct)
    $words[1] __complete $words[2..-1] 2>/dev/null
end
complete -c regdctl -f -a '(__regdctl_complete)'
for flag in path data file names keys certificate key authorities record out roots
    complete -c regdctl -o $flag -r -F
end
`,
}

// completion prints the script for a shell.
func completion(*flag.FlagSet) runner {
	return func(s *session) error {
		if err := s.argumentCount(1, 1); err != nil {
			return err
		}
		script, isKnown := completionScripts[s.arguments[0]]
		if !isKnown {
			return invalidf("regdctl completion takes bash, zsh or fish, and not %s", s.arguments[0])
		}
		return s.print(script)
	}
}

// complete prints what the last word can be, one in a line: commands, flags, and with REGDCTL_COMPLETE=ids also ids. It
// never fails, since a shell would show nothing else.
func (s *session) complete(words []string, env lookup) error {
	if len(words) == 0 {
		words = []string{""}
	}
	last := words[len(words)-1]
	for _, word := range s.candidates(words[:len(words)-1], last, env) {
		if strings.HasPrefix(word, last) {
			if err := s.print(word + "\n"); err != nil {
				return err
			}
		}
	}
	return nil
}

// candidates returns what can follow some words.
func (s *session) candidates(before []string, last string, env lookup) []string {
	before = withoutSettings(before)
	c, _, err := findCommand(append(append([]string{}, before...), "."))
	if len(before) == 0 || err != nil {
		return nextWords(before)
	}
	if strings.HasPrefix(last, "-") {
		return flagsOf(c)
	}
	if values := valuesOf(c, before[len(before)-1]); values != nil {
		return values
	}
	if mode, _ := env("REGDCTL_COMPLETE"); mode == "ids" {
		return s.ids(before[len(before)-1], env)
	}
	if c.name == "completion" {
		return []string{"bash", "fish", "zsh"}
	}
	return nil
}

// withoutSettings returns the words from the command on.
func withoutSettings(words []string) []string {
	for len(words) > 0 && strings.HasPrefix(words[0], "-") {
		isWhole := strings.ContainsRune(words[0], '=') || strings.HasSuffix(words[0], "-trace")
		if words = words[1:]; !isWhole && len(words) > 0 {
			words = words[1:] // the value
		}
	}
	return words
}

// nextWords returns the words of commands that can follow.
func nextWords(before []string) []string {
	var found []string
	for _, c := range allCommands() {
		words := strings.Fields(c.name)
		isLonger := len(words) > len(before)
		if isLonger && strings.Join(words[:len(before)], " ") == strings.Join(before, " ") &&
			!isOneOf(words[len(before)], found...) {
			found = append(found, words[len(before)])
		}
	}
	if len(before) == 0 {
		found = append(found, "help", "-version")
	}
	return found
}

// flagsOf returns the flags of a command, with those of all commands.
func flagsOf(c *command) []string {
	flags := flag.NewFlagSet(c.name, flag.ContinueOnError)
	c.define(flags)
	(&settings{}).define(flags)
	var found []string
	flags.VisitAll(func(f *flag.Flag) { found = append(found, "-"+f.Name) })
	return found
}

// valuesOf returns the values of a flag that has few, or nil.
func valuesOf(c *command, name string) []string {
	switch strings.TrimLeft(name, "-") {
	case "output":
		return []string{"json", "lines", "table", "yaml"}
	case "matchSelectorsOn":
		return []string{"any", "exact", "subset", "superset"}
	case "format":
		if c.name == "export" {
			return []string{"spire", "state"}
		}
	case "mode":
		if c.name == "bundle delete" {
			return []string{"delete", "dissociate", "restrict"}
		}
	}
	return nil
}

// ids returns ids, agents or SPIFFE IDs from one page of entries, or nothing if the server doesn't answer within a
// second.
func (s *session) ids(name string, env lookup) []string {
	if err := s.settings.check(); err != nil {
		return nil
	}
	s.errs, s.settings.output = io.Discard, "table"
	ctx, cancel := context.WithTimeout(context.Background(), time.Second)
	defer cancel()
	s.ctx = ctx
	c := client.New(s.options(s.settings.addresses()))
	defer c.Close()
	answer, err := c.Ask(ctx, client.Op{"op": "page", "size": client.PageSize})
	if err != nil {
		return nil
	}
	var found []string
	for _, e := range answer.Replies[0].Entries {
		found = append(found, s.idFor(name, e))
	}
	return book.Ordered(found)
}

// idFor returns what fits a flag, or an argument: the SPIFFE ID of an entry.
func (s *session) idFor(name string, e book.Entry) string {
	switch strings.TrimLeft(name, "-") {
	case "entryID":
		return e.ID
	case "parentID", "agent":
		return s.short(e.Parent)
	case "explain":
		return s.short(e.Parent)
	}
	return s.short(e.Identity)
}
