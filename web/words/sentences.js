// What is worded for people, for the page and for tools/use/network-report, which takes what stands in the outer brackets as JSON: the summary's
// sentences, the questions in the page's order, a title and a sentence for each kind of answer, and what a refusal means. A name in
// braces is a place that is filled.
export const SENTENCES = {
  "summary": {
    "orgs": {
      "label": "The organisations",
      "lost": ["bad", "{lost} of {of} validators of {orgs|file} are not in {config|file}."],
      "without": ["bad", "Of these none is there: {without|orgs}. Is it the same network?"]
    },
    "speaks": {
      "label": "Whose view",
      "outside": ["bad", "This page speaks for {node|node}, which is in no quorum."],
      "unknown": ["warn", "This page speaks for {node|node}, whose quorum set is not known."]
    },
    "fork": {
      "label": "Can it fork?",
      "none": ["bad", "There is no quorum: nothing is ever agreed on."],
      "none-known": ["warn", "No quorum is known."],
      "no": ["good", "It cannot fork."],
      "yes": ["bad", "It can fork, though no node lies. {first|nodes} against {second|nodes}."],
      "networks": ["bad", "It can fork: it is {count|networks} that do not depend on one another. {first|nodes} against {second|nodes}."],
      "undecided": ["warn", "It is not decided whether it can fork."],
      "split": ["warn", "Of {of|watchers}, on whom nobody depends, {count} could be split off: {keys|nodes}."],
      "unknown": ["warn", "Quorum sets that are not known: of {count|nodes}, {named} of them named by others. These count as agreeing with nobody."]
    },
    "seen": {
      "label": "As one node sees it",
      "none": ["bad", "As {node|node} sees it there is no quorum."],
      "none-known": ["warn", "As {node|node} sees it no quorum is known."],
      "no": ["", "As {node|node} sees it, it cannot fork."],
      "yes": ["bad", "As {node|node} sees it, it can fork: {first|nodes} against {second|nodes}."],
      "undecided": ["warn", "As {node|node} sees it, that is not decided."]
    },
    "lies": {
      "label": "If one organisation lies?",
      "none": ["", "There is no quorum to fork."],
      "forked": ["", "It forks without that."],
      "unknown": ["", "No organisations are known."],
      "nowhere": ["warn", "Not asked: no organisation has a validator here."],
      "nobody": ["good", "Of {of|organisations} none can fork it."],
      "nobody-here": ["", "Of {of|organisations} none can fork this part of it."],
      "each": ["bad", "Each of {of|organisations} can fork it: {orgs|orgs}."],
      "some": ["bad", "Of {of|organisations} {count} can fork it: {orgs|orgs}."],
      "elsewhere": ["bad", "Among validators outside this view these can: {orgs|orgs}."],
      "undecided": ["warn", "Not decided: {orgs|orgs}."],
      "split": ["warn", "Of {of|watchers}, on whom nobody depends, some could be split off by {orgs|counts}."]
    },
    "stop": {
      "label": "Who can stop it?",
      "none": ["", "There is no quorum to stop."],
      "sets": ["", "{sets|sets}."],
      "alone": ["bad", "{sets|sets}."],
      "found": ["warn", "{sets|sets}. More than {most} together were not asked about."],
      "open": ["warn", "None of {most} together; more were not asked about."],
      "nodes": ["", "By single nodes: {count|sets_of}, the smallest of {least}."]
    },
    "now": {
      "label": "As things are now",
      "none": ["", "No validator is marked as down."],
      "down": ["warn", "Down: {count} of {of|validators} here, {keys|nodes}."],
      "stopped": ["bad", "Without these it has stopped: no quorum is left."],
      "sets": ["", "Beyond these it is stopped by {sets|sets}."],
      "alone": ["bad", "Beyond these it is stopped by {sets|sets}."],
      "found": ["warn", "Beyond these it is stopped by {sets|sets}. More than {most} together were not asked about."],
      "open": ["warn", "Beyond these none of {most} together stops it; more were not asked about."]
    },
    "node": {
      "label": "Your node",
      "unknown": ["warn", "The quorum set of {node|node} is not known, so nothing is known of what it agrees on."],
      "outside": ["bad", "{node|node} is in no quorum: as the file has it, it agrees with nobody."],
      "inside": ["", "{node|node} is in the greatest quorum."],
      "goes-on": ["good", "It goes on whichever other organisation is silent."],
      "stopped": ["bad", "It stops if one of these is silent: {orgs|orgs}."],
      "blocked": ["", "Its slices are all met by {sets|sets}."]
    }
  },
  "questions": {
    "summary": {"group": "In short", "ask": "All of it in short", "help": "Whether its validators can fork, also if one organisation lies; who can stop it, as the file has it and as things are now; and, as one node sees it, what that depends on."},
    "intersect": {"group": "Can it fork?", "ask": "Can the network fork?", "help": "Whether two groups of nodes can agree on different ledgers: two quorums that share no node. Choose who lies to see what lies can do."},
    "splits": {"group": "Can it fork?", "ask": "Can these fork it by lying?", "help": "Whether two quorums share no node but those that lie.", "set": "Who lies"},
    "turns": {"group": "Each organisation", "ask": "Each organisation in turn: if it lies, if it falls silent", "help": "Whether the network can fork if all nodes of one organisation lie, and whether it goes on if they fall silent."},
    "blocking": {"group": "Who can stop it?", "ask": "Who can stop it?", "help": "All minimal sets of nodes that stop every agreement if they fall silent. A list of thousands of sets takes seconds, and no budget bounds the time: the stop button does."},
    "org-blocking": {"group": "Who can stop it?", "ask": "Which organisations together can stop it?", "help": "All minimal sets of organisations, and of nodes of none, that stop every agreement if they fall silent."},
    "blocks": {"group": "Who can stop it?", "ask": "Do these stop it?", "help": "Whether a quorum is left if they fall silent.", "set": "Who falls silent (crashes)"},
    "available": {"group": "Who can stop it?", "ask": "Do all others go on without these?", "help": "Whether each of the others has a slice left if they fall silent.", "set": "Who falls silent (crashes)"},
    "dset": {"group": "Who can stop it?", "ask": "Are these dispensable?", "help": "Whether all others go on if they fall silent, and cannot fork if they lie.", "set": "Who may lie or fall silent"},
    "vblocks": {"group": "Who can stop it?", "ask": "Can these stop one node?", "help": "Whether they meet each of its slices.", "set": "Who falls silent (crashes)"},
    "greatest": {"group": "Who agrees with whom?", "ask": "Who can agree on anything?", "help": "The greatest quorum: who is not in it agrees with nobody."},
    "closure": {"group": "Who agrees with whom?", "ask": "On whom does a node depend?", "help": "The node, those in its quorum set, those in theirs, and so on."},
    "quorums": {"group": "Who agrees with whom?", "ask": "Which groups can agree on their own?", "help": "All minimal quorums. A list of thousands of sets takes seconds, and no budget bounds the time: the stop button does."},
    "least": {"group": "Who agrees with whom?", "ask": "How few can agree on their own?", "help": "A smallest quorum, with a certificate that none is smaller. It ends in practice up to about ten organisations of three."},
    "whatif": {"group": "What if?", "ask": "What if an organisation leaves, or a quorum set changes?", "help": "Edits one after another, and who goes on after each. A line is an edit: retire NODE, declare NODE, threshold NODE . 3, add NODE . NAME, drop NODE . NAME.", "set": "Who is silent meanwhile"},
    "trial": {"group": "What if?", "ask": "How long does a made-up network take?", "help": "Whether a network of so many organisations of three can fork. It has a file of its own."},
    "check": {"group": "Files", "ask": "Is this certificate right?", "help": "Accepted is only what is so, whoever made it. It has to be about the very bytes of this file of nodes."},
    "show": {"group": "Files", "ask": "What is in the file of nodes?", "help": "How many nodes there are, and what is odd in their quorum sets."},
    "export": {"group": "Files", "ask": "What is the formula of “Can it fork?”", "help": "As DIMACS text, for a SAT solver of your own."},
    "check-lrat": {"group": "Files", "ask": "Is another solver’s proof right?", "help": "A proof in LRAT that the formula has no model, of a question with the same nodes that lie."}
  },
  "answers": {
    "common": {
      "undecided": {"mood": "open", "head": "Not decided.", "said": "The budget of {units} units is spent. The certificate shows that it was spent usefully; of the network it says nothing. Ask again with more, or about a part (as a node sees it)."},
      "none": {"mood": "bad", "head": "There is no quorum: nothing is ever agreed on."},
      "none-known": {"mood": "open", "head": "No quorum is known.", "said": "The quorum sets of {count} are not known: these count as agreeing with nobody."},
      "apart": {"said": "{nodes} stands in no other node’s quorum set: nobody waits for what would be split off here.", "several": "{nodes} stand in no other node’s quorum set: nobody waits for what would be split off here."},
      "as-another": {"said": "Ask as {node} sees it"},
      "nobody": {"said": "nobody: there is no quorum"},
      "whole": {"said": "{text} The certificate shows that there are no others."},
      "others": {"said": "And {count} others."},
      "others-below": {"said": "And {count} others: all are in the program’s own words below."},
      "nothing-to-stop": {"said": "So there is nothing to stop."}
    },
    "intersect": {
      "yes": {"mood": "good", "head": "It cannot fork.", "said": "every two quorums share a node, so while no node lies no two groups agree on different ledgers.", "lying": "every two quorums still share a node that does not, so no two groups agree on different ledgers."},
      "as-one": {"mood": "open", "head": "As {node} sees it, it cannot fork.", "said": "Of the other nodes of the file this says nothing."},
      "no": {"mood": "bad", "head": "It can fork.", "said": "two quorums share no node: each can agree on a ledger of its own."},
      "none": {"said": "So no two quorums are disjoint, and that says nothing."}
    },
    "splits": {
      "yes": {"mood": "bad", "head": "They can fork it by lying.", "said": "They tell each of two quorums what it waits for, and the two share no other node."},
      "no": {"mood": "good", "head": "They cannot fork it by lying.", "said": "Every two quorums of the others share a node, whatever these say to each."}
    },
    "turns": {
      "none": {"mood": "open", "head": "No organisations are known.", "said": "Give their file, or a file of nodes with home domains."},
      "each": {"head": "{forks} of {of} can fork it by lying; {stops} can stop it alone.", "said": "If nobody lies, can it fork? "},
      "table": {"label": "Each organisation in turn", "heads": ["Organisation", "If it lies, can the network fork?", "If it falls silent"]},
      "lies": {"no": "No", "yes": "Yes", "against": ": {first} against {second}", "unknown": "Not decided within the budget", "status": "No answer (status {status})", "certificate": "certificate", "refused": " which its own check does not accept"},
      "silent": {"stops": "Nothing goes on", "left": "{left} of the other {rest} go on"}
    },
    "blocking": {
      "all": {"mood": "open", "head": "{count}.", "said": "The nodes of each, if they all fall silent, stop every agreement, and none of them can be left out.", "what": "minimal blocking set", "marked": "in one smallest minimal blocking set"}
    },
    "quorums": {
      "all": {"mood": "open", "head": "{count}.", "said": "The nodes of each can agree on their own, and none of them can be left out.", "what": "minimal quorum", "marked": "in one smallest minimal quorum"},
      "none": {"said": "So there is none to list."}
    },
    "sets": {
      "none": {"mood": "open", "head": "There is no {what}."},
      "smallest": {"said": "{text} The smallest has {count}."},
      "by-organisation": {"said": "By organisation they lie in:"},
      "each": {"said": "The sets, node by node"}
    },
    "org-blocking": {
      "all": {"mood": "open", "head": "{count} of organisations.", "said": "Those of each, if they all fall silent, stop every agreement, and none of them can be left out.", "marked": "of one smallest set that stops it"}
    },
    "least": {
      "all": {"mood": "open", "head": "{count} can agree on their own, and no fewer.", "said": "One such quorum: {nodes}", "alone": "{count} can agree on its own, and no fewer.", "marked": "in one smallest quorum"}
    },
    "blocks": {
      "yes": {"mood": "bad", "head": "They stop it.", "said": "If all of them fall silent no quorum is left, and nothing is agreed on.", "none": "There is no quorum even with them."},
      "no": {"mood": "good", "head": "It goes on without them.", "said": "The greatest quorum without them: {nodes}"}
    },
    "available": {
      "yes": {"mood": "good", "head": "All others go on without them.", "said": "Each of the others has a slice left."},
      "no": {"mood": "bad", "head": "Not all others go on.", "said": "{count} have no slice left: {nodes}. Who depends on these in turn is not listed. A node whose quorum set is not known counts as one without a slice.", "alone": "{count} has no slice left: {nodes}. Who depends on these in turn is not listed. A node whose quorum set is not known counts as one without a slice.", "marked": "without a slice"}
    },
    "dset": {
      "yes": {"mood": "good", "head": "They are dispensable.", "said": "If they lie the others cannot fork."},
      "no": {"mood": "bad", "head": "They are not dispensable.", "said": "If they lie the others can fork:"},
      "unknown": {"mood": "open", "head": "Not decided.", "said": "Whether the others can fork if they lie is not decided within the budget."},
      "silent": {"said": "If they fall silent all others go on.", "unmet": "If they fall silent not all others go on. Without a slice: {nodes}"}
    },
    "vblocks": {
      "yes": {"mood": "bad", "head": "They can stop {node}.", "said": "They have a node in each of its slices (a v-blocking set): if all fall silent it agrees on nothing. Of a node without slices, or whose quorum set is not known, this is always so."},
      "no": {"mood": "good", "head": "They cannot stop {node} by themselves.", "said": "A slice of it is left. Whether the nodes of that slice go on is another question."}
    },
    "greatest": {
      "all": {"mood": "open", "head": "{count} can agree.", "said": "The greatest quorum: {nodes}", "rest": "The other {left} can agree with nobody.", "whole": "That is every node of the file."}
    },
    "closure": {
      "all": {"mood": "open", "head": "{node} depends on {count}.", "said": "With itself, and with those on whom it depends through others: {nodes}", "marked": "on whom it depends"}
    },
    "check": {
      "accepted": {"head": "Accepted: {kind}."},
      "kinds": {"pair": ["bad", "It shows that the network can fork: two quorums that share no node."], "refutation": ["good", "It shows that every two quorums share a node: no fork."], "blocking": ["open", "It lists the minimal blocking sets, all of them."], "org-blocking": ["open", "It lists the minimal sets of organisations that stop the network, all of them."], "quorums": ["open", "It lists the minimal quorums, all of them."], "least": ["open", "It shows a smallest quorum."], "partial": ["open", "It shows work that was done, and of the network nothing."]}
    },
    "check-lrat": {
      "verified": {"mood": "good", "head": "The proof is right: it cannot fork.", "said": "It refutes the formula of this question, so every two quorums share a node."}
    },
    "show": {
      "size": {"head": "{count}.", "said": "{entries} entries in all quorum sets; {unset} without a quorum set; {watchers} that no other node’s quorum set names."},
      "even": {"mood": "good", "said": "Nothing is odd in the quorum sets: each threshold can be met, and none names a validator twice."},
      "odd": {"mood": "bad", "said": "Odd in the quorum sets:"},
      "places": {"own": "its own quorum set", "inner": "its inner quorum set {place}"},
      "repeated": "{node}: {where} names {other} more than once",
      "threshold": "{node}: {where} has the threshold {threshold} over {entries}, so no choice meets it"
    },
    "export": {
      "made": {"mood": "open", "head": "A formula of {variables} variables and {clauses} clauses.", "said": "Its models are the pairs of quorums that share no node. Any SAT solver reads it; what a solver proves is checked here (“Is another solver’s proof right?”)."}
    },
    "trial": {
      "size": {"said": "{nodes} nodes in {organisations} of three; a formula of {variables} variables and {clauses} clauses."},
      "yes": {"mood": "good", "head": "It cannot fork.", "said": "The network is made up. Its file can be saved below, and the certificate is one over that file."}
    },
    "whatif": {
      "goes-on": {"mood": "good", "head": "It goes on after the last edit.", "said": "Whether the network can fork after the edits this does not say."},
      "stops": {"mood": "bad", "head": "It stops.", "said": "Whether the network can fork after the edits this does not say."},
      "table": {"label": "Edits", "heads": ["Edit", "Greatest quorum", "Do all but the silent go on?"], "before": "before", "none": "none", "without": ", without {nodes}", "yes": "yes", "no": "no: {nodes}"}
    }
  },
  "refusals": {
    "status": {
      "3": "The question has a fault.",
      "4": "The file is refused.",
      "5": "It is not accepted.",
      "8": "Memory ran out.",
      "9": "The formula is too large.",
      "10": "The script is refused.",
      "other": "There is no answer."
    },
    "without-line": {
      "6": "A file is missing.",
      "7": "The answer is longer than the page takes: ask the program, quorum_cli.",
      "8": "The browser gave no more. Close other pages, ask about a part (as a node sees it), or ask the program, quorum_cli."
    },
    "causes": [
      ["config not-json", "The nodes are no JSON. Is the file cut, or another one? A byte order mark is not taken."],
      ["config not-nodes", "The file has no list of nodes at its top: take the list out of the object in which it stands."],
      ["config bad-key 0", "Its first entry has no public key. Is it the file of organisations?"],
      ["config bad-key", "A node’s publicKey is missing, or is no key."],
      ["config duplicate", "Two entries have the same key. Were two files joined?"],
      ["config bad-quorum-set", "A quorum set is not of the right form (the entry, counted from 0, and the member)."],
      ["config too-", "The file is larger than the program takes."],
      ["config ", "The nodes are refused."],
      ["orgs bad-org 0", "Its first entry is no organisation. Is it the file of nodes?"],
      ["orgs ", "The organisations are refused."],
      ["usage empty-name", "A name is empty: choose a node."],
      ["usage unknown-name", "A key is not in this file of nodes, or an organisation not in its file."],
      ["usage bad-name", "That is no key."],
      ["usage: ", "A number is out of range: a budget goes from 0 to 4,000,000,000, and organisations from 1 to 100."],
      ["refused digest", "The certificate is about another file of nodes: these bytes are not the ones that were certified (first its digest, then that of this file)."],
      ["refused no-orgs", "The certificate is about organisations: give their file."],
      ["refused orgs-digest", "The certificate is about another file of organisations: these bytes are not the ones that were certified."],
      ["refused formula", "It is about another question or another file."],
      ["refused step", "A step of the proof does not follow: what it claims is not shown."],
      ["refused not-refuted", "The proof is not finished."],
      ["refused truncated", "The file is cut."],
      ["refused ", "What it claims is not shown."],
      ["script bad-line", "This line of the script is no edit."],
      ["script unknown-node", "This line names a node that is not there."],
      ["script no-set", "This line is about a quorum set that is not there."],
      ["script ", "This line of the script cannot be done."],
      ["too-large", "The formula would have more than 4,000,000 variables. Ask about a part: as a node sees it."]
    ]
  }
};
