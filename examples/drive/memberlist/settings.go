package main

import (
	"fmt"
	"log"
	"os"
	"regexp"
	"sort"
	"strconv"
	"strings"

	time "driven/vtime"

	"github.com/hashicorp/memberlist"
)

// What version 3 of the format takes for a key that a scenario doesn't have (docs/FORMAT.md). A switch is 0 or 1.
var defaults = map[string]int{
	"swim.helpers": 3, "swim.lambda": 3, "swim.spread": 1, "swim.fallback": 0, "suspicion.alpha": 5, "suspicion.beta": 6,
	"lifeguard.probe": 1, "lifeguard.suspicion": 1, "lifeguard.buddy": 1, "lifeguard.ceiling": 8,
	"lifeguard.confirmations": 3, "lifeguard.nack_percent": 80,
	"gossip.interval": 0, "gossip.nodes": 3, "gossip.dead": 0, "gossip.push": 0,
}

var (
	header = regexp.MustCompile(`^\s*\[+\s*([\w.]+)`)
	pair   = regexp.MustCompile(`^\s*([\w.]+)\s*=\s*([^\s#]+)`)
	theirs = regexp.MustCompile(`^(swim|suspicion|lifeguard|gossip|serf)\b`)
)

// Reads what a scenario says of its members: a line `key = value` below [table] is table.key. All else is the world's.
func readSettings(file string) map[string]int {
	text, err := os.ReadFile(file)
	if err != nil {
		log.Fatal(err)
	}
	settings, table := map[string]int{}, ""
	for key, value := range defaults {
		settings[key] = value
	}
	for _, line := range strings.Split(string(text), "\n") {
		if found := header.FindStringSubmatch(line); found != nil {
			table = found[1] + "."
		} else if found := pair.FindStringSubmatch(line); found != nil && theirs.MatchString(table+found[1]) {
			settings[table+found[1]] = valueOf(table+found[1], found[2])
		}
	}
	for _, key := range []string{"swim.period", "swim.timeout"} {
		if settings[key] == 0 {
			log.Fatalf("%s: no such line below [swim]", key)
		}
	}
	return settings
}

func valueOf(key, text string) int {
	switch text {
	case "true":
		return 1
	case "false":
		return 0
	}
	value, err := strconv.ParseInt(text, 0, 64)
	if err != nil {
		log.Fatalf("%s = %s: this harness reads whole numbers, true and false, each on a line of its own", key, text)
	}
	return int(value)
}

// The settings of memberlist that a scenario says. A tick is a millisecond. What memberlist can't do is named on standard error.
func configOf(settings map[string]int) *memberlist.Config {
	used := map[string]bool{"swim.spread": true}
	get := func(key string) int {
		used[key] = true
		return settings[key]
	}
	ticks := func(key string) time.Duration { return time.Duration(get(key)) * time.Millisecond }
	config := memberlist.DefaultLANConfig()
	config.EnableCompression = false // so that a packet's kind can be seen
	config.ProbeInterval, config.ProbeTimeout = ticks("swim.period"), ticks("swim.timeout")
	config.IndirectChecks, config.RetransmitMult = get("swim.helpers"), get("swim.lambda")
	config.DisableTcpPings = get("swim.fallback") == 0
	config.SuspicionMult, config.SuspicionMaxTimeoutMult = get("suspicion.alpha"), get("suspicion.beta")
	config.AwarenessMaxMultiplier = get("lifeguard.ceiling") + 1
	config.GossipInterval, config.GossipNodes = ticks("gossip.interval"), get("gossip.nodes")
	config.GossipToTheDeadTime, config.PushPullInterval = ticks("gossip.dead"), ticks("gossip.push")
	fixed := map[string]int{"lifeguard.probe": 1, "lifeguard.suspicion": 1, "lifeguard.buddy": 1,
		"lifeguard.nack_percent": 100, "lifeguard.confirmations": config.SuspicionMult - 2}
	var strange []string
	for key, value := range settings {
		if is, known := fixed[key]; !used[key] && (!known || is != value) {
			strange = append(strange, fmt.Sprintf("memberlist-driven: memberlist can't do %s = %d", key, value))
		}
	}
	sort.Strings(strange)
	for _, line := range strange {
		fmt.Fprintln(os.Stderr, line)
	}
	return config
}
