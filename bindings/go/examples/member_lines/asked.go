package main

import (
	"fmt"
	"simplex"
	"strings"
)

// A resolver of which lines are asked.
type asked struct{ resolver *simplex.Resolver }

func (it *asked) reply(words []string) (string, error) {
	view := simplex.View(0)
	if len(words) > 1 {
		view = number(words[1])
	}
	switch words[0] {
	case "settled":
		return fmt.Sprint(it.resolver.IsSettled(view, kindOf(words[2]))), nil
	case "key-settled":
		return fmt.Sprint(it.resolver.IsSettled(view, simplex.Nullification) && it.resolver.IsSettled(view, simplex.Notarization)), nil
	case "uncertifiable":
		return fmt.Sprint(it.resolver.IsUncertifiable(view)), nil
	case "open":
		return fmt.Sprint(it.resolver.IsOpen(view)), nil
	case "fetches":
		return fmt.Sprint(it.resolver.Fetches()), nil
	case "outstanding":
		text := "outstanding"
		views, err := it.resolver.Outstanding()
		for _, view := range views {
			text += fmt.Sprint(" ", view)
		}
		return text, err
	case "produce", "served":
		return it.served(words[0], view)
	case "replayed":
		return "-", nil
	}
	effects, err := it.told(words, view)
	if err != nil {
		return faultText(err)
	}
	return effectsText(effects), nil
}

func (it *asked) told(words []string, view simplex.View) ([]simplex.Effect, error) {
	parent := view
	if parent > 0 {
		parent--
	}
	if words[0] == "certified" {
		return it.resolver.Certified(certificate(simplex.Notarization, proposal(view, parent, 0)), words[2] == "true")
	}
	return it.resolver.Updated(certificate(kindOf(words[0]), proposal(view, parent, 0)))
}

func (it *asked) served(word string, view simplex.View) (string, error) {
	found, err := it.resolver.Produce(view)
	if found == nil {
		return "none", err
	}
	text, err := found.Subject.Encoded()
	if word == "produce" {
		return "some", err
	}
	return "served " + sumOf(append(text, found.Bytes...)), err
}

func effectsText(effects []simplex.Effect) string {
	var texts []string
	for _, effect := range effects {
		switch it := effect.(type) {
		case simplex.FetchEffect:
			reason := "certification_failed"
			if it.Reason == simplex.MissingNullification {
				reason = "missing_nullification"
			}
			texts = append(texts, fmt.Sprint("fetch ", it.View, " ", it.Cause, " ", reason))
		case simplex.SettledEffect:
			texts = append(texts, fmt.Sprint("settled ", certificates[it.Kind], " ", it.Start, " ", it.End))
		case simplex.FinalizedEffect:
			texts = append(texts, fmt.Sprint("finalized ", it.View))
		case simplex.RaisedEffect:
			texts = append(texts, fmt.Sprint("raised ", it.View))
		}
	}
	if len(texts) == 0 {
		return "-"
	}
	return strings.Join(texts, "; ")
}
