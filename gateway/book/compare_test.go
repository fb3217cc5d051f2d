package book

import "testing"

// TestDifferences compares each column, and sets as sets.
func TestDifferences(t *testing.T) {
	before := Entry{ID: "i", Parent: "p", Identity: "q", Selectors: []string{"b", "a"}, Domains: []string{"x", "y"}}
	same := before
	same.Selectors, same.Domains, same.Revision = []string{"a", "b", "a"}, []string{"y", "x"}, 7
	if found := Differences(before, same); found != nil {
		t.Errorf("%v", found)
	}
	if before.Key() != same.Key() || !SameSet(before.Selectors, same.Selectors) || SameSet([]string{"a"}, nil) {
		t.Errorf("%s, %s", before.Key(), same.Key())
	}
	after := Entry{ID: "i", Parent: "p2", Identity: "q2", Selectors: []string{"c"}, Hint: "h", Expiry: 1,
		X509TTL: 2,
		JWTTTL:  3}
	want := []Difference{{"parent", "p", "p2"}, {"identity", "q", "q2"}, {"selectors", "a b", "c"},
		{"hint", "", "h"},
		{"domains", "x y", ""}, {"expiry", "0", "1"}, {"x509_svid_ttl", "0", "2"}, {"jwt_svid_ttl", "0", "3"}}
	found := Differences(before, after)
	for i, d := range want {
		if i >= len(found) || found[i] != d {
			t.Fatalf("got %v", found)
		}
	}
}
