// Sixty small programs, written from the pages alone. Each word is a program of its own, and the file verdicts has what the checker is to
// say of its log: this was written before a program ran.
package main

import (
	"os"
	"runtime"
)

var isPaused, isResumed bool

// Keeps the first that calls it waiting, until somebody resumes it. Others pass.
//
//go:norace
func pause() {
	if isPaused {
		return
	}
	for isPaused = true; !isResumed; {
		runtime.Gosched()
	}
}

// Waits until somebody is paused.
//
//go:norace
func awaitPause() {
	for !isPaused {
		runtime.Gosched()
	}
}

//go:norace
func resume() { isResumed = true }

var words = map[string]func(){
	"sessions": runSessions, "settings": runSettings, "pages": runPages, "recent": runRecent, "table": runTable,
	"counter": runCounter, "wallets": runWallets, "hall": runHall, "inventory": runInventory, "scores": runScores,
	"queue": runQueue, "batch": runBatch, "stages": runStages, "service": runService, "connections": runConnections,
	"statistics": runStatistics, "machine": runMachine, "limiter": runLimiter, "election": runElection, "client": runClient,
	"breaker": runBreaker, "lazy": runLazy, "numbers": runNumbers, "progress": runProgress, "matrix": runMatrix,
	"bus": runBus, "subject": runSubject, "room": runRoom, "ring": runRing, "reminder": runReminder,
	"tickets": runTickets, "vault": runVault, "striped": runStriped, "chain": runChain, "ledger": runLedger,
	"loan": runLoan, "document": runDocument, "votes": runVotes, "tags": runTags, "supervised": runSupervised,
	"report": runReport, "plates": runPlates, "clockwork": runClockwork, "spin": runSpin, "mirror": runMirror,
	"rules": runRules, "lamp": runLamp, "ids": runIds, "nicknames": runNicknames, "leases": runLeases,
	"desk": runDesk, "funnel": runFunnel, "debounce": runDebounce, "download": runDownload, "tasks": runTasks,
	"agenda": runAgenda, "rounds": runRounds, "gate": runGate, "radio": runRadio, "turnstile": runTurnstile,
}

func main() {
	run := words[os.Args[1]]
	if run == nil {
		os.Exit(2)
	}
	run()
}
