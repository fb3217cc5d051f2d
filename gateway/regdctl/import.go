package main

import (
	"bytes"
	"encoding/json"
	"flag"
	"fmt"
	"os"
	"path/filepath"
	"regexp"
	"sort"
	"strings"
	"time"

	"regd/gateway/book"
	"regd/gateway/client"
	"regd/gateway/desired"
)

// An importer collects what SPIRE printed, and what of it can't be carried over.
type importer struct {
	*session
	without map[string]bool
	state   desired.State
	ids     []string // of SPIRE, of each entry
	left    []leftover
	unknown map[string]bool // columns that could be left out
	count   int
}

// A leftover is a row that can't be carried over, with the reasons.
type leftover struct {
	name, identity string
	reasons        []string
}

// importState reads what SPIRE's commands print, and prints it as a desired state, or sends it.
func importState(flags *flag.FlagSet) runner {
	without := flags.String("without", "",
		"leave out these `columns` of SPIRE, which the book lacks, such as admin,dns_names")
	set := flags.String("set", "spire", "the `name` of the set")
	isSent := flags.Bool("send", false, "create the rows directly, with SPIRE's ids if these are UUIDs")
	isLines := flags.Bool("lines", false, "print the request lines that -send sends")
	return func(s *session) error {
		if len(s.arguments) == 0 {
			return s.argumentCount(1, 1)
		}
		i := &importer{session: s, without: map[string]bool{}, unknown: map[string]bool{}}
		i.state.Name = *set
		for _, column := range strings.Split(*without, ",") {
			i.without[column] = column != ""
		}
		if err := i.readFiles(s.arguments); err != nil {
			return err
		}
		if len(i.left) > 0 {
			return i.refused()
		}
		i.state.Domain = s.settings.domain
		if i.state.Domain == "" {
			return invalidf("the files have no entry and no agent, so the domain is not known\n  cure:   " +
				"add -domain D")
		}
		if *isSent || *isLines {
			return i.send(*isLines)
		}
		for n := range i.state.Entries {
			i.state.Entries[n].ID = i.ids[n] // for names, where parent and identity are not enough
		}
		return s.showState(&i.state)
	}
}

// readFiles reads files, and the files *.json of folders.
func (i *importer) readFiles(words []string) error {
	for _, word := range words {
		files := []string{word}
		if info, err := os.Stat(word); word != "-" && err == nil && info.IsDir() {
			found, err := filepath.Glob(filepath.Join(word, "*.json"))
			if err != nil {
				return err
			}
			sort.Strings(found)
			files = found
		}
		for _, name := range files {
			text, err := i.readFile(name)
			if err != nil {
				return err
			}
			if err := i.read(name, text); err != nil {
				return invalidf("%s: %v", name, err)
			}
		}
	}
	return nil
}

// read reads a file, which shows by its keys what it is.
func (i *importer) read(name string, text []byte) error {
	decoder := json.NewDecoder(bytes.NewReader(text))
	decoder.UseNumber()
	var file map[string]any
	if err := decoder.Decode(&file); err != nil {
		return err
	}
	if !isEmpty(file["next_page_token"]) {
		return fmt.Errorf("next_page_token: it is one page of several")
	}
	kinds := map[string]func(map[string]any){"entries": i.entry, "agents": i.agent, "bundles": i.bundle,
		"items": i.static}
	for _, kind := range []string{"bundles", "agents", "entries", "items"} {
		list, isList := file[kind].([]any)
		if !isList {
			continue
		}
		for n, item := range list {
			row, isRow := item.(map[string]any)
			if !isRow {
				return fmt.Errorf("%s: item %d is not an object", kind, n+1)
			}
			i.count++
			kinds[kind](row)
		}
		return nil
	}
	if _, isBundle := file["keys"].([]any); isBundle {
		i.count++
		domain := strings.TrimSuffix(filepath.Base(name), ".json")
		i.state.Bundles = append(i.state.Bundles, book.Bundle{Domain: domain, Text: string(text)})
		return nil
	}
	return fmt.Errorf("it has no list `entries`, `agents`, `bundles`, `items` or `keys`")
}

// leave records that a row can't be carried over.
func (i *importer) leave(name, identity string, reasons []string) {
	if len(reasons) > 0 {
		i.left = append(i.left, leftover{name, identity, reasons})
	}
}

// isDefault returns true for a value that a field of SPIRE has if it is not set.
func isDefault(value any) bool {
	switch value := value.(type) {
	case json.Number:
		return value == "0"
	case string:
		return value == "" || value == "0"
	case map[string]any:
		return len(value) == 0
	}
	return isEmpty(value)
}

// known are the keys of entries that say who gets what, or nothing.
func isKnownKey(key string) bool {
	own, isSpire := spireKeys[key]
	if !isSpire {
		own = key
	}
	return isUnused[own] || isOneOf(own, "id", "identity", "parent", "hint", "expiry", "x509_svid_ttl",
		"jwt_svid_ttl",
		"selectors", "domains")
}

// entry reads an entry of SPIRE: as `entry show` prints it, or as `entry create -data` takes it.
func (i *importer) entry(row map[string]any) {
	var reasons []string
	kept := map[string]any{}
	keys := make([]string, 0, len(row))
	for key := range row {
		keys = append(keys, key)
	}
	sort.Strings(keys)
	for _, key := range keys {
		switch value := row[key]; {
		case isKnownKey(key):
			kept[key] = value
		case !isDefault(value) && !i.without[key]:
			i.unknown[key] = true
			reasons = append(reasons, columnText(key, value))
		}
	}
	e, faults := i.readEntry(kept)
	for _, fault := range faults {
		reasons = append(reasons, fault.Error())
	}
	id := e.ID
	e.ID = ""
	reasons = append(reasons, i.limits(e)...)
	i.leave("entry "+orDash(id), i.short(e.Identity), reasons)
	i.state.Entries, i.ids = append(i.state.Entries, desired.Entry{Entry: e}), append(i.ids, id)
}

// columnText names a column that the book lacks, with its value if that is a list of texts.
func columnText(key string, value any) string {
	list, isList := value.([]any)
	if !isList {
		return key
	}
	return key + ": " + strings.Trim(fmt.Sprint(list), "[]")
}

// limits returns what the book refuses of an entry.
func (i *importer) limits(e book.Entry) (reasons []string) {
	for _, id := range []string{e.Parent, e.Identity} {
		reasons = append(reasons, i.faultOfID(id)...)
	}
	if len(e.Selectors) < 1 || len(e.Selectors) > 16 {
		reasons = append(reasons, "it has no selectors, or more than 16 (B6)")
	}
	if len(e.Domains) > 8 {
		reasons = append(reasons, "it federates with more than 8 trust domains (B7)")
	}
	if len(e.Hint) > 1024 {
		reasons = append(reasons, "its hint has more than 1,024 bytes (B8)")
	}
	if len(book.Lacking([]string{i.settings.domain}, e.Domains)) == 0 {
		reasons = append(reasons, "it federates with the server's own trust domain (O5)")
	}
	return append(reasons, faultOfSelectors(e.Selectors)...)
}

// faultOfID checks an ID. The first domain that is seen is that of the server, if -domain says nothing.
func (i *importer) faultOfID(id string) []string {
	domain, path := book.SplitID(id)
	if i.settings.domain == "" {
		i.settings.domain = domain
	}
	switch {
	case domain != i.settings.domain:
		return []string{"another trust domain: " + id + " (B3)"}
	case path == "":
		return []string{"an ID without a path: " + id + " (B4)"}
	}
	return nil
}

func faultOfSelectors(selectors []string) []string {
	for _, selector := range selectors {
		if len(selector) > 512 {
			return []string{"a selector of more than 512 bytes (S4)"}
		}
	}
	return nil
}

// agentKeys are the keys of agents that are carried over, or that say nothing about who gets what.
var agentKeys = []string{"id", "selectors", "banned", "attestation_type", "x509svid_serial_number",
	"x509svid_expires_at", "can_reattest", "agent_version"}

func (i *importer) agent(row map[string]any) {
	var a book.Agent
	var reasons []string
	id, err := i.textOf(row["id"])
	if err != nil {
		reasons = append(reasons, "id: "+err.Error())
	}
	a.ID = id
	if row["selectors"] != nil {
		if a.Selectors, err = listOf(row["selectors"], selectorOf); err != nil {
			reasons = append(reasons, "selectors: "+err.Error())
		}
	}
	if row["banned"] == true {
		reasons = append(reasons, "banned")
	}
	for key, value := range row {
		if !isOneOf(key, agentKeys...) && !isDefault(value) && !i.without[key] {
			i.unknown[key] = true
			reasons = append(reasons, columnText(key, value))
		}
	}
	if len(a.Selectors) > 64 {
		reasons = append(reasons, "it has more than 64 selectors (B6)")
	}
	reasons = append(append(reasons, i.faultOfID(id)...), faultOfSelectors(a.Selectors)...)
	if !book.IsAgentID(id) {
		reasons = append(reasons, "its path doesn't begin with "+book.AgentPath+" (B10)")
	}
	i.leave("agent", i.short(id), reasons)
	i.state.Agents = append(i.state.Agents, a)
}

// bundle reads a bundle as `bundle list -output json` prints it. Its text is that of SPIRE, without the name and the
// number.
func (i *importer) bundle(row map[string]any) {
	domain, isText := row["trust_domain"].(string)
	domain = strings.TrimPrefix(domain, "spiffe://")
	delete(row, "trust_domain")
	delete(row, "sequence_number")
	text, err := client.Print(row)
	var reasons []string
	if !isText || err != nil {
		reasons = append(reasons, "it has no trust_domain")
	}
	if domain == i.settings.domain && domain != "" {
		reasons = append(reasons, "it is the server's own (B11)")
	}
	if len(text) > 65536 {
		reasons = append(reasons, "its text has more than 65,536 bytes (B12)")
	}
	i.leave("bundle", domain, reasons)
	i.state.Bundles = append(i.state.Bundles, book.Bundle{Domain: domain, Text: string(text)})
}

// staticKeys are the keys of a ClusterStaticEntry of spire-controller-manager by those of SPIRE's files.
var staticKeys = map[string]string{"spiffeID": "spiffe_id", "parentID": "parent_id", "federatesWith": "federates_with",
	"x509SVIDTTL": "x509_svid_ttl", "jwtSVIDTTL": "jwt_svid_ttl", "dnsNames": "dns_names",
	"storeSVID": "store_svid"}

// static reads an entry of `kubectl get clusterstaticentries -o json`.
func (i *importer) static(item map[string]any) {
	metadata, _ := item["metadata"].(map[string]any)
	spec, isEntry := item["spec"].(map[string]any)
	if !isEntry || item["kind"] != "ClusterStaticEntry" {
		i.leave(fmt.Sprintf("item %d", i.count), "", []string{"it is no ClusterStaticEntry"})
		return
	}
	row := map[string]any{"id": metadata["name"]}
	for key, value := range spec {
		if own, isKnown := staticKeys[key]; isKnown {
			key = own
		}
		if word, isText := value.(string); isText && strings.HasSuffix(key, "_ttl") {
			if lifetime, err := time.ParseDuration(word); err == nil {
				value = json.Number(fmt.Sprint(int64(lifetime / time.Second)))
			}
		}
		row[key] = value
	}
	i.entry(row)
}

// refused names everything that can't be carried over.
func (i *importer) refused() error {
	rows := [][]string{}
	for _, l := range i.left {
		rows = append(rows, []string{"  " + l.name, l.identity, strings.Join(l.reasons, "; ")})
	}
	text := fmt.Sprintf("%d of %d rows can't be imported:\n%s", len(i.left), i.count, table(rows))
	cure := "  cure:   remove or change them in SPIRE"
	if columns := sortedKeys(i.unknown); len(columns) > 0 {
		cure += ", or leave these columns out: -without " + strings.Join(columns, ",")
	}
	return invalidf("%s%s", text, cure)
}

func sortedKeys(set map[string]bool) []string {
	var keys []string
	for key := range set {
		keys = append(keys, key)
	}
	return book.Ordered(keys)
}

var uuidForm = regexp.MustCompile(`^[0-9a-f]{8}(-[0-9a-f]{4}){3}-[0-9a-f]{12}$`)

// send creates the rows, or prints the lines that do. An id that is no UUID gets one of the set.
func (i *importer) send(isPrinted bool) error {
	var ops []client.Op
	for _, b := range i.state.Bundles {
		ops = append(ops, client.SetBundle(b.Domain, b.Text))
	}
	for _, a := range i.state.Agents {
		ops = append(ops, client.SetAgent(a))
	}
	for n, e := range i.state.Entries {
		switch id := strings.ToLower(i.ids[n]); {
		case uuidForm.MatchString(id):
			e.ID = id
		case id != "":
			e.ID = i.state.ID("name " + i.ids[n])
			i.warn("renamed: %s is now %s", i.ids[n], e.ID)
		default:
			e.ID = i.state.ID("key " + e.Key())
		}
		ops = append(ops, client.Create(e.Entry))
	}
	if isPrinted {
		return i.printLines(ops)
	}
	return i.sendAll(ops, "imported")
}
