package ordup_test

import (
	"fmt"
	"log"

	"ordup.dev/ordup"
)

func Example() {
	store, err := ordup.Open()
	if err != nil {
		log.Fatal(err)
	}
	defer store.Close()
	store.Object("tea", 40)
	store.Site("south", 2)
	store.Limit("south", ordup.Object("tea"), 6)
	store.Start()
	fmt.Println(store.Propose(ordup.Add("tea", -5)))
	fmt.Println(store.Settle())
	fmt.Println(store.Apply("south"))
	// Output:
	// 1 <nil>
	// {acked 1 []} <nil>
	// 0 apply south: refused 16 NothingToApply
}

func ExampleStore_Run() {
	store, err := ordup.Open()
	if err != nil {
		log.Fatal(err)
	}
	defer store.Close()
	answers, err := store.Run([]byte("object tea 40\nsite south 2\n\n# no answer\nstart"))
	fmt.Print(string(answers))
	fmt.Println(err)
	// Output:
	// ok object tea
	// ok site south
	// ok start
	// <nil>
}

func ExampleStore_Commands() {
	store, err := ordup.Open()
	if err != nil {
		log.Fatal(err)
	}
	defer store.Close()
	answers, err := store.Commands("object tea 40", "object tea 1")
	for _, answer := range answers {
		fmt.Println(answer)
	}
	// Output:
	// {object tea}
	// object tea 1: refused 5 NameTaken
}
