// Package book answers questions about a copy of a server's book: which entries an agent may serve and why, who can
// get an identity, and what looks wrong. It needs no connection. The rules are those of docs/BOOK.md.
package book

import (
	"encoding/json"
	"strings"
)

// Entry is a registration entry, with the keys of docs/LINES.md.
type Entry struct {
	ID        string   `json:"id"`
	Identity  string   `json:"identity"`
	Parent    string   `json:"parent"`
	Selectors []string `json:"selectors"`
	Hint      string   `json:"hint"`
	Domains   []string `json:"domains"`
	Expiry    uint64   `json:"expiry"`
	X509TTL   uint64   `json:"x509_svid_ttl,omitempty"`
	JWTTTL    uint64   `json:"jwt_svid_ttl,omitempty"`
	Revision  uint64   `json:"revision"`
}

// Agent is a registered agent.
type Agent struct {
	ID        string   `json:"id"`
	Selectors []string `json:"selectors"`
}

// Bundle is the bundle of a federated domain. Its text is empty where only a listing was read.
type Bundle struct {
	Domain   string `json:"domain"`
	Sequence uint64 `json:"sequence"`
	Text     string `json:"text,omitempty"`
}

// ServerPath is the path of the server's own ID. An entry with this parent is an alias.
const ServerPath = "/spire/server"

// AgentPath begins the path of each agent's ID.
const AgentPath = "/spire/agent/"

// SplitID returns the trust domain and the path of a SPIFFE ID.
func SplitID(id string) (domain, path string) {
	rest := strings.TrimPrefix(id, "spiffe://")
	if slash := strings.IndexByte(rest, '/'); slash >= 0 {
		return rest[:slash], rest[slash:]
	}
	return rest, ""
}

// IsAlias returns true if the entry is an alias of agents.
func (e *Entry) IsAlias() bool {
	_, path := SplitID(e.Parent)
	return path == ServerPath
}

// IsAgentID returns true if the ID has the form of an agent's.
func IsAgentID(id string) bool {
	_, path := SplitID(id)
	return strings.HasPrefix(path, AgentPath)
}

// A marker is the entry that says which plan of a set of entries was applied last. No agent can reach it, as long as no
// entry has the SPIFFE ID of its parent.
const (
	MarkerParent   = "/regdctl"
	MarkerIdentity = "/regdctl/set"
	MarkerSelector = "regdctl:set:" // with the name of the set
)

// IsMarker returns true if the entry is the marker of a set.
func (e *Entry) IsMarker() bool {
	_, parent := SplitID(e.Parent)
	_, identity := SplitID(e.Identity)
	return parent == MarkerParent && identity == MarkerIdentity
}

// Applied is what a marker says about the plan that was applied last.
type Applied struct {
	Set  string `json:"set"`
	Plan string `json:"plan"`
	// Batch and Batches say how far it got.
	Batch   int    `json:"batch"`
	Batches int    `json:"batches"`
	By      string `json:"by,omitempty"`
}

// Applied reads the hint of a marker. It returns false if the hint is not one that regdctl writes.
func (e *Entry) Applied() (a Applied, isOne bool) {
	err := json.Unmarshal([]byte(e.Hint), &a)
	return a, err == nil && a.Set != "" && a.Batches > 0
}
