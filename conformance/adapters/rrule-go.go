// rrule-go: StrToRRuleSet, whose iterator has RDATE and EXDATE too. It does not read VALUE=DATE, so that word is left out.
package main

import ("bufio"; "fmt"; "os"; "strconv"; "strings"; "time")
import "github.com/teambition/rrule-go"

func answer(words []string, lines []string) {
	set, err := rrule.StrToRRuleSet(strings.ReplaceAll(strings.Join(lines, "\n"), ";VALUE=DATE", ""))
	if words[0] == "equal" || err != nil {
		fmt.Println(map[bool]string{true: "not asked", false: fmt.Sprint("refused ", err)}[words[0] == "equal"])
		return
	}
	layout := "20060102T150405"[:len(strings.TrimSuffix(lines[0][strings.LastIndex(lines[0], ":")+1:], "Z"))]
	after, _ := time.Parse(layout, strings.TrimSuffix(words[1], "Z"))
	wanted, _ := strconv.Atoi(words[len(words)-1])
	if !strings.Contains(strings.Join(lines, "\n"), "RRULE") {
		set.RDate(set.GetDTStart())
	}
	next := set.Iterator()
	for at, ok := next(); ok && wanted > 0; at, ok = next() {
		if words[0] == "first" || at.After(after) {
			fmt.Println(at.Format(layout))
			wanted--
		}
	}
}

func main() {
	var block []string
	for scanner := bufio.NewScanner(os.Stdin); scanner.Scan(); {
		block = append(block, scanner.Text())
		if scanner.Text() == "" {
			answer(strings.Fields(block[0]), block[1:len(block)-1])
			fmt.Println()
			block = nil
		}
	}
}
