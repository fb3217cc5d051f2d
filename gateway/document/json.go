package document

import (
	"bytes"
	"encoding/json"
	"errors"
	"fmt"
	"io"
)

// A jsonReader reads the tokens of a file.
type jsonReader struct {
	text    []byte
	decoder *json.Decoder
	offset  int64 // up to which lines were counted
	line    int
}

func readJSON(text []byte) (*Node, error) {
	r := &jsonReader{text: text, decoder: json.NewDecoder(bytes.NewReader(text)), line: 1}
	r.decoder.UseNumber()
	node, err := r.value(0)
	if err != nil {
		return nil, err
	}
	if _, err := r.decoder.Token(); !errors.Is(err, io.EOF) {
		return nil, Faultf(r.lineOf(r.decoder.InputOffset()), "there is more behind the JSON value")
	}
	return node, nil
}

// lineOf returns the line of a byte. Bytes are asked for in their order.
func (r *jsonReader) lineOf(offset int64) int {
	if offset > int64(len(r.text)) {
		offset = int64(len(r.text))
	}
	if offset > r.offset {
		r.line += bytes.Count(r.text[r.offset:offset], []byte("\n"))
		r.offset = offset
	}
	return r.line
}

func (r *jsonReader) token() (json.Token, int, error) {
	token, err := r.decoder.Token()
	if err == nil {
		return token, r.lineOf(r.decoder.InputOffset()), nil
	}
	offset := r.decoder.InputOffset()
	var syntax *json.SyntaxError
	if errors.As(err, &syntax) && syntax.Offset > offset {
		offset = syntax.Offset
	}
	if errors.Is(err, io.EOF) || errors.Is(err, io.ErrUnexpectedEOF) {
		return nil, 0, Faultf(r.lineOf(int64(len(r.text))), "the file ends within the JSON value")
	}
	return nil, 0, Faultf(r.lineOf(offset), "%v", err)
}

func (r *jsonReader) value(depth int) (*Node, error) {
	token, line, err := r.token()
	if err != nil {
		return nil, err
	}
	return r.valueOf(token, line, depth)
}

func (r *jsonReader) valueOf(token json.Token, line, depth int) (*Node, error) {
	if depth > most {
		return nil, Faultf(line, "lists and mappings nest more than %d deep", most)
	}
	switch value := token.(type) {
	case string:
		return &Node{Line: line, Kind: Text, Text: value}, nil
	case json.Number:
		return &Node{Line: line, Kind: Number, Text: value.String()}, nil
	case bool:
		return &Node{Line: line, Kind: Bool, Text: fmt.Sprint(value)}, nil
	case json.Delim:
		if value == '[' {
			return r.list(line, depth)
		}
		return r.object(line, depth)
	}
	return &Node{Line: line, Kind: Null}, nil
}

func (r *jsonReader) list(line, depth int) (*Node, error) {
	node := &Node{Line: line, Kind: List}
	for {
		token, at, err := r.token()
		if err != nil {
			return nil, err
		}
		if token == json.Delim(']') {
			return node, nil
		}
		item, err := r.valueOf(token, at, depth+1)
		if err != nil {
			return nil, err
		}
		node.Items = append(node.Items, item)
	}
}

func (r *jsonReader) object(line, depth int) (*Node, error) {
	node := &Node{Line: line, Kind: Map}
	for {
		token, at, err := r.token()
		if err != nil {
			return nil, err
		}
		key, isKey := token.(string)
		if !isKey { // the decoder accepts only the end here
			return node, nil
		}
		value, err := r.value(depth + 1)
		if err != nil {
			return nil, err
		}
		if err := node.add(key, at, value); err != nil {
			return nil, err
		}
	}
}
