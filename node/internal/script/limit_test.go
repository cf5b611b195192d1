package script

import (
	"reflect"
	"testing"
)

func TestALimitIsReadAsDeclarationsHaveIt(t *testing.T) {
	t.Parallel()
	for text, wants := range map[string]Limit{
		"count 3": {"count", 3}, " object  tea\t20 ": {"object tea", 20}, "group goods 0": {"group goods", 0}, "all none": {"all", MostAmount},
		"count 1000000000000000001": {"count", MostAmount + 1},
	} {
		if limit, err := ParseLimit(text); err != nil || limit != wants {
			t.Errorf("%q is %v, %v", text, limit, err)
		}
	}
	for _, text := range []string{"", "none", "count", "count -1", "count 3 4", "counts 3", "object 3", "object Tea 3", "object tea", "all x",
		"count 9223372036854775808", "group a b 3"} {
		if limit, err := ParseLimit(text); err == nil {
			t.Errorf("%q is %v", text, limit)
		}
	}
}

func TestALimitTakesThePlaceOfTheOneOfItsScope(t *testing.T) {
	t.Parallel()
	first := Limits{{"count", 3}, {"object tea", 20}}
	if second := first.Changed(Limit{"object tea", 5}).Changed(Limit{"all", 9}); !reflect.DeepEqual(second.Texts(), []string{"count 3", "object tea 5", "all 9"}) {
		t.Error(second)
	}
	if !reflect.DeepEqual(first.Texts(), []string{"count 3", "object tea 20"}) {
		t.Error(first)
	}
}
