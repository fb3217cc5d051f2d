package desired

import (
	"strings"

	"regd/gateway/book"
)

// File is a state as a file has it.
type File struct {
	Version int          `json:"regdctl"`
	Domain  string       `json:"domain"`
	Set     string       `json:"set"`
	Agents  []FileAgent  `json:"agents,omitempty"`
	Bundles []FileBundle `json:"bundles,omitempty"`
	Aliases []FileEntry  `json:"aliases,omitempty"`
	Entries []FileEntry  `json:"entries,omitempty"`
}

// FileAgent is an agent in a file.
type FileAgent struct {
	ID        string   `json:"id"`
	Selectors []string `json:"selectors"`
}

// FileBundle is a bundle in a file.
type FileBundle struct {
	Domain string `json:"domain"`
	Text   string `json:"text"`
}

// FileEntry is an entry in a file.
type FileEntry struct {
	Name      string   `json:"name,omitempty"`
	ID        string   `json:"id,omitempty"`
	Identity  string   `json:"identity"`
	Parent    string   `json:"parent,omitempty"`
	Selectors []string `json:"selectors"`
	Hint      string   `json:"hint,omitempty"`
	Domains   []string `json:"domains,omitempty"`
	Expiry    uint64   `json:"expiry,omitempty"`
	X509TTL   uint64   `json:"x509_svid_ttl,omitempty"`
	JWTTTL    uint64   `json:"jwt_svid_ttl,omitempty"`
}

// File returns the state as a file has it, without what has to be absent and what is asserted. An entry whose id is one
// of the set, but not that of its parent and identity, has its id there. Other entries with the same parent and
// identity
// have their ids as names.
func (s *State) File() File {
	f := File{Version: 1, Domain: s.Domain, Set: s.Name}
	for _, a := range s.Agents {
		f.Agents = append(f.Agents, FileAgent{s.short(a.ID), append([]string{}, a.Selectors...)})
	}
	for _, b := range s.Bundles {
		f.Bundles = append(f.Bundles, FileBundle{b.Domain, b.Text})
	}
	rows := map[string]int{}
	for _, e := range s.Entries {
		rows[nameOf("", e.Entry)]++
	}
	for _, e := range s.Entries {
		one := s.fileEntry(e.Entry, rows[nameOf("", e.Entry)] > 1)
		if e.IsAlias() {
			one.Parent = ""
			f.Aliases = append(f.Aliases, one)
		} else {
			f.Entries = append(f.Entries, one)
		}
	}
	return f
}

func (s *State) fileEntry(e book.Entry, isAmbiguous bool) FileEntry {
	one := FileEntry{Identity: s.short(e.Identity), Parent: s.short(e.Parent), Selectors: e.Selectors, Hint: e.Hint,
		Domains: e.Domains, Expiry: e.Expiry, X509TTL: e.X509TTL, JWTTTL: e.JWTTTL}
	switch {
	case s.Has(e.ID) && e.ID != s.ID(nameOf("", e)):
		one.ID = e.ID
	case !s.Has(e.ID) && isAmbiguous:
		one.Name = e.ID
	}
	return one
}

// short returns the path of an ID of the domain.
func (s *State) short(id string) string { return strings.TrimPrefix(id, "spiffe://"+s.Domain) }
