// What is asked of one run, and its outcome: only types.

/** @typedef {import("./ending/timed-ends.mjs").OnlyByTime} OnlyByTime */
/** @typedef {import("./ending/timed-ends.mjs").WaitPlace} WaitPlace */
/** @typedef {import("./races/race-reports.mjs").RaceReport} RaceReport */
/** @typedef {import("./script/array-accesses.mjs").ArrayAccesses} ArrayAccesses */
/** @typedef {import("./windows/in-windows.mjs").NamedWindow} NamedWindow */
/** @typedef {import("../../script/choices.mjs").AgentChoice} AgentChoice */

/**
 * How a run ends. Of agents that use an object: the history may not be linearizable, or have a lost wake-up; `blocked`:
 * the operations that are open rightly wait.
 * @typedef {"finished" | "deadlock" | "stuck" | "failed" | "check" | "race" | "limit" | "cut" | "not linearizable"
 * | "lost wake-up" | "blocked"} Ending
 */

/**
 * @typedef {object} BriefOutcome what the outcome of each run has
 * @property {number} seed
 * @property {Ending} ending
 * @property {boolean} fails whether it is a failing run, by its ending and by what is allowed
 * @property {string} detail why it ended so; empty if all agents finished
 * @property {number} moves
 * @property {number} calls of Atomics that were begun
 * @property {number} ordinary how many ordinary reads and writes were seen
 * @property {{ returned: number, calls: number }[]} progress of each agent: calls that returned, and that began
 * @property {import("./ending/final-state.mjs").FinalState} state of the end
 * @property {RaceReport[]} races the unordered accesses, each pair of lines of code once
 * @property {number[]} [row] which agent moved with each draw, in order, if that is asked for
 * @property {AgentChoice[][]} [choices] what each agent chose, if one did
 * @property {string} [noScript] why there is no script
 * @property {string[]} [unrecorded] which shared memory and which threads agents used that aren't recorded, if any
 * @property {string[]} [real] what a program has used that the machine answers, by name and line, if anything
 * @property {string} [onlyIf] of a failing run in which a timed wait has ended early: what time must pass for that
 * @property {OnlyByTime[]} [onlyByTime] waits that have ended only because their time was up
 * @property {WaitPlace[]} [served] places at which agents of the run wait, and which other agents have notified or
 * written; only runs with timed waits have it
 */

/**
 * @typedef {object} OutcomeScript what is made of the calls of a run that fails, or is to be checked
 * @property {NamedWindow[]} [windows] of a program whose memory is more than a script can have: where the bytes of its
 * buffers are in the script's blocks and in the trace
 * @property {string} [detail] with where agents wait in a deadlock, or at a limit
 * @property {import("./ending/standing.mjs").Standing[]} [standing] what each agent is at in a deadlock, or at a limit
 * @property {import("./ending/failure.mjs").Failure} [failure] what made the run fail, in short; a race is in `races`
 * @property {string} [noScript] why there is no script
 * @property {string[]} [bytes] of each buffer as it was left, in hexadecimal digits
 * @property {(string | null)[][]} [answers] of each agent's calls, as a report spells them; null: a wait that goes on
 * @property {string} [script] what `sabsim replay` reads
 * @property {"all" | "touched"} [scriptHolds] which ordinary writes the script has: all, or those of bytes that some
 * call of Atomics touches
 * @property {string} [report] what sabsim must report
 */

/**
 * @typedef {object} OutcomeLines what is known only if accesses have noted their lines of code
 * @property {RaceReport[]} [races] with their lines
 * @property {string} [detail] with the line of an await
 * @property {NamedWindow[]} [windows] those of the trace
 * @property {string} [trace] each event as an object of JSON, a line each
 * @property {ArrayAccesses} [accesses] by which arrays the trace's ordinary accesses were made, and what they read
 * @property {string} [noTrace] why there is no trace, though it was wanted
 * @property {import("./words/source-names.mjs").SourceText[]} [sources] the code of each file that the trace names
 * @property {LoopTask[]} [tasks] of a program that has its trace: what its event loops have begun besides messages; of
 * agents what they chose, if one did
 * @property {[number, string][]} [messages] of the same run: the number of each message, and what is in it, shortened
 */

/**
 * @typedef {object} OutcomeNames
 * @property {string[]} [threads] of a program: what each thread is, its file and where it was started; empty: the first
 */

/** @typedef {BriefOutcome & OutcomeScript & OutcomeLines & OutcomeNames} Outcome of one run */

/**
 * @typedef {object} LoopTask a timer, an immediate, or what comes of a function that node does later; or a choice
 * @property {number} event how many events of the trace come before it
 * @property {number} agent
 * @property {string} text what its event loop begins, or what it chose, in words
 * @property {string | null} source where that was made: file, line and column
 */

/**
 * @typedef {object} Wanting
 * @property {number} seed
 * @property {boolean} whole whether a run that finishes has answers, script and report too
 * @property {boolean} [isTrial] whether only its ending is wanted: it has no answers, script, report or trace
 * @property {boolean} [wantsLines] whether a trial has the lines of its races
 * @property {boolean} [needsTrace] whether it has its trace in any case
 * @property {boolean} [wantsActs] whether the outcome has a digest of all that was done
 * @property {boolean} [isSilent] whether nothing is printed of what the agents print
 * @property {boolean} [isShown] whether what a program prints is shown, though the run isn't the first one
 * @property {boolean} [learns] whether pilots of a program are made before, of which nothing is known yet
 * @property {boolean} [isFresh] whether the agents' workers are started anew before
 * @property {AgentChoice[][]} [choices] what each agent is to choose; else the seed draws it. If the run is to go
 * exactly by a row, it ends at the first question that differs
 */

/** @typedef {Wanting & import("../board/drawn-schedule.mjs").WantedSchedule} WantedRun a run that is to be made */

/**
 * @typedef {object} Aside what is reported beside an outcome to code that compares runs
 * @property {{ agent: number, block: number, byte: number }[]} waiting who waits where in a deadlock, in order of
 * arrival
 * @property {import("../board/drawn-schedule.mjs").Divergence} [divergence] how it has diverged from the row that it
 * was to go by exactly
 * @property {number[][]} [drawsBefore] of each agent's choices how many draws were made before, if the row is wanted
 * @property {FirstRunAgain} [again] the result of a program's run in fresh threads, if it was made once more there
 */

/**
 * @typedef {object} FirstRunAgain
 * @property {string} acts a digest of all that was done in the run itself
 * @property {Pick<Outcome, "ending" | "detail" | "state"> & { acts: string }} again the same run in fresh threads
 * @property {string} [place] where that one first did something else
 * @property {boolean} [diverges] whether that one couldn't go by the row of the first
 */

/**
 * @typedef {object} Judgement whether the recorder has found unordered accesses in a run, and in which events it has
 * looked; beside an outcome that has a script, if ordinary accesses are watched
 * @property {boolean} racy whether it has found any
 * @property {Int32Array} events those of the run's log
 * @property {boolean} isInScript whether the script has all of them, and no others
 */

/** @typedef {{ outcome: Outcome, judgement?: Judgement, aside: Aside }} One all that is reported about one run */

/**
 * @typedef {Omit<Judgement, "events"> & { events?: Int32Array }} SentJudgement without the events if they are copied
 */

/**
 * @typedef {Omit<One, "judgement"> & { judgement?: SentJudgement,
 * taken?: import("./run-snapshot.mjs").RunSnapshot }} Sent the same as the referee sends it: without its script and
 * report if these are made of copies
 */
