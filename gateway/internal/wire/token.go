package wire

import (
	"bytes"
	"crypto/sha256"
	"encoding/hex"
	"encoding/json"
	"fmt"
	"strconv"
)

// A Tokened is a change with a token, for the table of tokens that the gateway keeps in place of regd.
type Tokened struct {
	Token string // the 32 hexadecimal digits of the UUID
	Same  string // equal for two batches if regd would compare them as equal
	Line  []byte // the line without its token
	// a line that commits nothing: regd answers W1 if the line holds a valid request, and otherwise its fault
	Probe []byte
	After uint64
}

// ReadTokened reads a line. If a gateway has added revisions to it, they are not compared: when the line comes again,
// the entries may have others. It returns false if the line has no token, or if regd refuses it for a reason that
// taking the token off would hide: L5, U1 or B14. Such a line goes to regd as it is.
func ReadTokened(line []byte, isAdded bool) (t Tokened, ok bool) {
	if !bytes.Contains(line, []byte(`"token"`)) && bytes.IndexByte(line, '\\') < 0 {
		return t, false
	}
	b, ok := readBatch(line)
	text, isText := b.token.(string)
	if !ok || !isText || b.changes == 0 || len(b.missing) > 0 {
		return t, false
	}
	if b.after != nil {
		number, _ := b.after.(json.Number)
		var err error
		if t.After, err = strconv.ParseUint(string(number), 10, 64); err != nil {
			return t, false
		}
	}
	end := bytes.LastIndexByte(line, '}')
	t.Line = insert(line, end, `,"token":null`)
	t.Probe = insert(line, end, `,"token":null,"after":18446744073709551615`)
	if isAdded {
		for _, op := range b.ops {
			delete(op, "revision")
		}
	}
	t.Same = same(b.ops)
	t.Token, ok = readUUID(text)
	return t, ok
}

// the defaults of optional keys, but for the empty set of domains
var defaults = map[string]any{
	"hint":          "",
	"expiry":        json.Number("0"),
	"x509_svid_ttl": json.Number("0"),
	"jwt_svid_ttl":  json.Number("0"),
	"mode":          "restrict",
	"match":         "superset",
}

// same returns a hash of operations as regd compares them: the order of keys, spelling, nulls, defaults, the order in
// sets and repeats in them make no difference. It changes the operations.
func same(ops []map[string]any) string {
	for _, op := range ops {
		for key, value := range op {
			if value == nil || value == defaults[key] {
				delete(op, key)
				continue
			}
			switch value := value.(type) {
			case string:
				if id, ok := readUUID(value); ok && (key == "id" || key == "from") {
					op[key] = id
				}
			case []any:
				set := map[string]bool{}
				for _, item := range value {
					set[fmt.Sprint(item)] = true
				}
				op[key] = set
				if key == "domains" && len(set) == 0 {
					delete(op, key)
				}
			}
		}
	}
	text, err := json.Marshal(ops) // with the keys of maps in order
	if err != nil {
		panic(err) // they were read from JSON
	}
	sum := sha256.Sum256(text)
	return hex.EncodeToString(sum[:16])
}
