package main

import (
	"flag"
	"fmt"
	"runtime/debug"
	"strings"
)

// A runner does the work of a command whose flags were read.
type runner func(s *session) error

// A command has its words, such as "entry create", and a line of help.
type command struct {
	name, words, about string
	// define adds the flags of the command, and returns what runs it.
	define func(flags *flag.FlagSet) runner
}

func allCommands() []command {
	return []command{
		{"entry create", "", "create entries, all or none", createEntries},
		{"entry show", "", "show entries: one, those of a parent, or those that pass filters", showEntries},
		{"entry count", "", "count entries", countEntries},
		{"entry update", "", "replace all values of an entry", updateEntry},
		{"entry set", "", "change some values of an entry", setEntry},
		{"entry edit", "", "change an entry in an editor", editEntry},
		{"entry delete", "", "delete entries, all or none", deleteEntries},
		{"agent set", "", "register an agent, or replace its selectors", setAgent},
		{"agent show", "", "show an agent", showAgent},
		{"agent list", "", "list agents", listAgents},
		{"agent count", "", "count agents", countAgents},
		{"agent evict", "", "remove an agent", evictAgent},
		{"agent entries", "", "show the entries that an agent may serve", agentEntries},
		{"agent bundles", "", "show the bundles that an agent needs", agentBundles},
		{"bundle set", "", "set the bundle of a partner's domain", setBundle},
		{"bundle show", "", "print the bundle of a domain", showBundle},
		{"bundle list", "", "list bundles", listBundles},
		{"bundle count", "", "count bundles", countBundles},
		{"bundle delete", "", "remove the bundle of a domain", deleteBundle},
		{"bundle sync", "FILE", "fetch bundles over https, and set those that differ", syncBundles},
		{"prune", "", "remove the entries that have expired", prune},
		{"plan", "FILE..", "show what would make the book as files say", planState},
		{"apply", "FILE..|PLAN", "make the book as files say, or as a stored plan says", applyState},
		{"export", "", "print the book, or a set, as a file for plan", export},
		{"import", "FILE..", "print what SPIRE printed as a file for plan, or send it", importState},
		{"backup", "", "print the request lines that make the book", backup},
		{"restore", "FILE", "send the lines of a backup", restore},
		{"diff", "X Y", "compare two books: each a place, a file, a backup or @ADDRESS", diff},
		{"watch", "", "print each commit with the entries that it changes", watch},
		{"explain", "AGENT [ENTRY]", "say why an agent may serve an entry, or which link is missing", explain},
		{"who-can", "ID", "say which agents may serve a SPIFFE ID", whoCan},
		{"tree", "", "show all entries below their agents and aliases", showTree},
		{"check", "", "find what looks wrong", check},
		{"graph", "", "draw agents, aliases and entries: a page, a drawing, or for Graphviz", drawGraph},
		{"browse", "", "serve the page of graph on a loopback port, from live data", browse},
		{"proxy", "", "serve request lines over HTTP on a loopback port", proxy},
		{"status", "", "show whether the server answers, and its commit number", showStatus},
		{"wait", "", "wait until the server has a commit", waitFor},
		{"call", "[LINE..]", "send request lines as they are, and print the answers", call},
		{"env", "", "show the settings, and where they come from", showEnv},
		{"completion", "bash|zsh|fish", "print the completion for a shell", completion},
	}
}

// instead says what to do in place of commands of SPIRE that have no counterpart.
var instead = map[string]string{
	"agent ban":      "regd attests no agents. Remove it with `regdctl agent evict`, and stop what registers it",
	"agent purge":    "regd doesn't know which agents are alive. Remove them with `regdctl agent evict`",
	"token generate": "regd attests no agents. Register an agent with `regdctl agent set`",
	"x509 mint":      "regd issues no SVIDs",
	"jwt mint":       "regd issues no SVIDs",
	"healthcheck":    "use `regdctl status`",
	"federation": "regd fetches no bundles. Set each one with `regdctl bundle set`, or from a timer with " +
		"`regdctl bundle sync`",
}

// findCommand returns the command that the words begin with, and the other words.
func findCommand(words []string) (*command, []string, error) {
	all := allCommands()
	for i := range all {
		name := strings.Fields(all[i].name)
		if len(words) >= len(name) && strings.Join(words[:len(name)], " ") == all[i].name {
			return &all[i], words[len(name):], nil
		}
	}
	for name, text := range instead {
		if strings.HasPrefix(strings.Join(words, " ")+" ", name+" ") {
			return nil, nil, invalidf("%s of SPIRE has no counterpart\n  cure:   %s", name, text)
		}
	}
	if group := groupOf(words[0]); len(group) > 0 {
		return nil, nil, invalidf("regdctl %s takes one of: %s", words[0], strings.Join(group, ", "))
	}
	return nil, nil, invalidf("there is no command %s\n  cure:   see `regdctl help`", words[0])
}

// groupOf returns the second words of the commands that begin with a word.
func groupOf(word string) []string {
	var found []string
	for _, c := range allCommands() {
		if first, second, isTwo := strings.Cut(c.name, " "); isTwo && first == word {
			found = append(found, second)
		}
	}
	return found
}

func (s *session) help(words []string) error {
	if len(words) == 0 {
		return s.print(helpText())
	}
	c, _, err := findCommand(words)
	if err != nil {
		return err
	}
	return s.print(commandText(c))
}

// helpText returns all commands and settings.
func helpText() string {
	var text strings.Builder
	text.WriteString("usage: regdctl COMMAND [FLAGS] [ARGUMENTS]\n\n")
	for _, c := range allCommands() {
		fmt.Fprintf(&text, "  %-24s %s\n", strings.TrimSpace(c.name+" "+c.words), c.about)
	}
	text.WriteString("\n`regdctl COMMAND -h` lists the flags of a command. All commands have these,\n" +
		"each with a variable:\n\n")
	for _, one := range allSettings {
		about := strings.ReplaceAll(one.about, "`", "")
		fmt.Fprintf(&text, "  -%-12s %-20s %s\n", one.name, one.variable(), about)
	}
	fmt.Fprintf(&text, "  -%-12s %-20s %s\n", "trace", "", "print request and reply lines on standard error")
	fmt.Fprintf(&text, "  -%-12s %-20s %s\n", "version", "", "print the version")
	text.WriteString("\nExit status: 0 done; 1 no connection, or a file; 2 invalid command line or file;\n" +
		"3 refused; 4 the answer is no; 5 it is unknown whether a change was made.\n")
	return text.String()
}

// commandText returns the flags of a command.
func commandText(c *command) string {
	flags := flag.NewFlagSet(c.name, flag.ContinueOnError)
	c.define(flags)
	var text strings.Builder
	fmt.Fprintf(&text, "usage: %s\n\n%s.\n", strings.TrimSpace("regdctl "+c.name+" [FLAGS] "+c.words),
		upperFirst(c.about))
	flags.VisitAll(func(f *flag.Flag) {
		name, about := flag.UnquoteUsage(f)
		fmt.Fprintf(&text, "\n  -%s\n        %s", strings.TrimSpace(f.Name+" "+name), about)
	})
	text.WriteString("\n\nThe flags of all commands: `regdctl help`.\n")
	return text.String()
}

func upperFirst(text string) string { return strings.ToUpper(text[:1]) + text[1:] }

// versionText returns the version, and the commit where the program was built from one.
func versionText() string {
	commit := ""
	if info, isBuilt := debug.ReadBuildInfo(); isBuilt {
		for _, setting := range info.Settings {
			if setting.Key == "vcs.revision" && len(setting.Value) >= 12 {
				commit = ", commit " + setting.Value[:12]
			}
		}
	}
	return "regdctl " + version + commit + ", for the lines of regd " + version + "\n"
}
