// What the page of a run is made from.

/** @typedef {import("../schedule/report-entries.mjs").ReportEntry} ReportEntry */
/** @typedef {import("./words.mjs").View} View */

/**
 * @typedef {object} Event of the trace
 * @property {number} agent
 * @property {number} call
 * @property {string} does
 * @property {number} block
 * @property {number} byte
 * @property {number} size
 * @property {boolean} read
 * @property {boolean} write
 * @property {number} place its position among the places of the code, or -1
 * @property {number} [array] of an ordinary access by a typed array: its position among the arrays
 * @property {string} [value] what an ordinary read of one element has read
 */

/**
 * @typedef {object} RunData what the page of a run is made from
 * @property {number} seed
 * @property {string} module the name of its file
 * @property {string} ending
 * @property {string} detail
 * @property {number} agents how many, with helpers, and without that of `init`
 * @property {number[]} blocks their lengths
 * @property {View[]} views
 * @property {View[]} arrays of the code, by which ordinary accesses were made
 * @property {ReportEntry[]} entries those that act, wait, leave and are stuck
 * @property {Record<string, any>[]} standings of agents whose calls haven't all returned
 * @property {Event[]} events of the trace; none if it isn't known
 * @property {boolean} isWhole whether all are there; if not, those that are ordinary and don't race are missing
 * @property {string[]} places of the code: file, line and column
 * @property {{ file: string, text: string | null }[]} files
 * @property {[number, number][]} races the two events of each, the most useful first
 * @property {"all" | "touched"} holds which ordinary writes the script has
 * @property {string[]} [threads] of a program: each thread's file and where it was started; empty for the first one;
 * for each helper, whose waitAsync it stands for
 * @property {{ where: string, what: string }[]} [windows] of a program that has more memory than a script: which bytes
 * of the blocks are which bytes of the program
 * @property {number[]} [senders] of a program: which thread has sent each message
 * @property {Task[]} [tasks] of a program: what its event loops have begun besides messages
 * @property {[number, string][]} [messages] of a program: the number of each message, and what is in it, shortened
 * @property {string} [script] its text, in a page that can change the schedule
 * @property {About} [about] how the run was made
 * @property {Command} [command] that makes the run again; undefined: none does
 */

/**
 * @typedef {object} Task
 * @property {number} before how many of the events come before it
 * @property {number} agent
 * @property {string} text what it is, in words
 * @property {number} place of the code where it was made, or -1
 */

/**
 * @typedef {object} About
 * @property {string} module its path
 * @property {string} options of the command line that don't have their defaults; empty: none
 * @property {string} made the versions of the recorder, the simulator and node
 */

/**
 * @typedef {object} Command words of a shell
 * @property {string} options the program, the module and the options that the run depends on
 * @property {string} args what comes behind the options, for the agents
 * @property {string} script the path of the run's script, or of the file that has its row
 * @property {boolean} [isOfRow] whether it makes only this run, by its row, and no other schedule
 */

export {};
