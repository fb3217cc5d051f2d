package book

import (
	"fmt"
	"strconv"
	"time"
)

// Seconds reads a lifetime: seconds, or a number with s, m, h or d.
func Seconds(text string) (uint64, error) {
	if n, err := strconv.ParseUint(text, 10, 64); err == nil {
		return n, nil
	}
	units := map[byte]uint64{'s': 1, 'm': 60, 'h': 3600, 'd': 86400}
	if text == "" {
		return 0, fmt.Errorf("a lifetime is missing")
	}
	unit := units[text[len(text)-1]]
	n, err := strconv.ParseUint(text[:len(text)-1], 10, 40)
	if err != nil || unit == 0 {
		return 0, fmt.Errorf("not a lifetime, such as 3600, 90s, 30m, 1h or 7d: %s", text)
	}
	return n * unit, nil
}

// Moment reads a time: seconds since 1970, or as in RFC 3339.
func Moment(text string) (uint64, error) {
	if n, err := strconv.ParseUint(text, 10, 64); err == nil {
		if n > LastSecond {
			return 0, fmt.Errorf("%s is not in seconds since 1970: it has more than ten digits\n  cure:   "+
				"divide "+
				"milliseconds by 1000", text)
		}
		return n, nil
	}
	at, err := time.Parse(time.RFC3339, text)
	if err != nil || at.Unix() < 0 {
		return 0, fmt.Errorf("not a time, such as 1800000000 or 2027-01-15T08:00:00Z: %s", text)
	}
	return uint64(at.Unix()), nil
}
