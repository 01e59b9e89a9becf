"""Numbers of documents, manuals and headers of crates are those of the code: limits and sizes."""
import ast
import pathlib
import re
import sys
import unittest
from datetime import date

TOP = pathlib.Path(__file__).resolve().parents[2]
sys.path.insert(0, str(TOP / "clients/python"))

from rubewola import days  # noqa: E402
from rubewola.commands import VERSION  # noqa: E402

QUOTED = re.compile(r"`([^`]+)`")
NUMBER = re.compile(r"\d[\d,]*")
WORDS = {"two": 2, "three": 3, "four": 4, "five": 5, "six": 6, "eight": 8, "ten": 10, "sixteen": 16,
         "twenty": 20}
UNITS = {"": 1, "KiB": 1 << 10, "MiB": 1 << 20, "GiB": 1 << 30, "TiB": 1 << 40}

# Where else a limit is told: the file, what stands around the number, the constant.
TOLD = [
    ("docs/SHELL.md", r"`line too long` \| more than (\S+) bytes", "pk_shell", "MAX_LINE_BYTES"),
    ("docs/SHELL.md", r"`text too long` \| `add` \| more than (\S+) bytes",
     "pk_model", "MAX_TEXT_BYTES"),
    ("docs/SHELL.md", r"`buffer full` \| `add` \| (\S+) documents",
     "pk_model", "MAX_BUFFERED_DOCUMENTS"),
    ("docs/SHELL.md", r"or their texts would pass (\S+) bytes", "pk_model", "MAX_BUFFERED_BYTES"),
    ("docs/SHELL.md", r"`numbers used up` \| `add` \| the next number is (\S+)",
     "pk_model", "END_OF_NUMBERS"),
    ("docs/SHELL.md", r"the store has (\S+) segments, one for each commit",
     "pk_model", "MAX_SEGMENTS"),
    ("docs/SHELL.md", r"the segment would pass (\S+) bytes", "pk_model", "MAX_SEGMENT_BYTES"),
    ("docs/SHELL.md", r"`query too long` \| more than (\S+) bytes", "pk_query", "MAX_BYTES"),
    ("docs/SHELL.md", r"more than (\S+) brackets open", "pk_query", "MAX_DEPTH"),
    ("docs/SHELL.md", r"makes a file of N units of (\S+) bytes", "pk_disk", "UNIT"),
    ("docs/FORMATS.md", r"are at most (1,\S+)\.", "pk_model", "MAX_SEGMENT_BYTES"),
    ("docs/FORMATS.md", r"n is at most (\S+)\.", "pk_posting", "LONGEST_LIST"),
    ("crates/pk_shell/src/lib.rt", r"too long \(more than (\S+) bytes",
     "pk_shell", "MAX_LINE_BYTES"),
    ("crates/pk_shell/src/lib.rt", r"not longer than (\S+) bytes", "pk_shell", "OUTBOX_BYTES"),
    ("crates/pk_shell/src/lib.rt", r"the store has (\S+) segments", "pk_model", "MAX_SEGMENTS"),
    ("crates/pk_shell/src/lib.rt", r"would pass (\S+) bytes", "pk_model", "MAX_SEGMENT_BYTES"),
    ("crates/pk_merge/src/lib.rt", r"have at most (\S+) bytes", "pk_merge", "MOST_KEPT_LISTS"),
    ("crates/pk_merge/src/lib.rt", r"segment would pass (\S+) bytes",
     "pk_model", "MAX_SEGMENT_BYTES"),
    ("crates/pk_merge/src/lib.rt", r"in writes of (\S+) bytes", "pk_merge", "WRITE"),
    ("crates/pk_merge/src/lib.rt", r"stand within (\S+) bytes", "pk_merge", "SPAN_BYTES"),
    ("crates/pk_join/src/lib.rt", r"a `Walk` holds (\S+) bytes", "pk_join", "READ_AHEAD"),
    ("crates/pk_arguments/src/command_line.rt", r"A store takes (\S+) commits",
     "pk_model", "MAX_SEGMENTS"),
    ("docs/SHELL.md", r"N units of 512 bytes, (\S+) to", "pk_disk", "LEAST_UNITS"),
    ("docs/SHELL.md", r"N units of 512 bytes, 64 to (\S+),", "pk_disk", "MAX_UNITS"),
    ("docs/SHELL.md", r"fewer than (\S+) whole units", "pk_disk", "LEAST_UNITS"),
    ("docs/SHELL.md", r"whole units of (\S+) bytes", "pk_disk", "UNIT"),
    ("docs/SHELL.md", r"whole units of 512 bytes, or, but to `read`, more than (\S+) \|", "pk_disk", "MAX_UNITS"),
    ("docs/SHELL.md", r"the disk has fewer than (\S+) units", "pk_disk", "LEAST_UNITS"),
    ("docs/SHELL.md", r"there were (\S+) reads", "pk_shell", "MAX_READS"),
    ("docs/LIMITS.md", r"documents, (\S+) at most", None,
     lambda of: (of("pk_model", "MAX_SEGMENT_BYTES") - 24) // 12),
    ("docs/LIMITS.md", r"none reaches the (\S+) numbers", "pk_posting", "LONGEST_LIST"),
    ("docs/LIMITS.md", r"one unit for up to (\S+) numbers", None,
     lambda of: (of("pk_disk", "UNIT") - of("pk_open", "LIST_COUNT_BYTES"))
     // of("pk_open", "LIST_NUMBER_BYTES")),
    ("docs/LIMITS.md", r"40 bytes for each: one unit for up to (\S+) segments", None,
     lambda of: of("pk_disk", "UNIT") // 40),
    ("docs/LIMITS.md", r"12 segments, (\S+) for 4,096", None,
     lambda of: of("pk_model", "MAX_SEGMENTS") * 40 // of("pk_disk", "UNIT")),
    ("docs/LIMITS.md", r"of the table, (\S+) at most", None,
     lambda of: of("pk_model", "MAX_SEGMENTS") * 40),
    ("docs/LIMITS.md", r"of the body, (\S+);", "pk_manifest", "BODY_SIZE"),
    ("docs/LIMITS.md", r"growth \| (\S+) bytes", "pk_manifest", "BODY_SIZE"),
    ("docs/LIMITS.md", r"\((\S+) words in 4,096 segments", None,
     lambda of: of("pk_query", "MAX_BYTES") // 2),
    ("docs/LIMITS.md", r"words in 4,096 segments: (\S+) MB", None,
     lambda of: of("pk_query", "MAX_BYTES") // 2 * of("pk_model", "MAX_SEGMENTS") * 16 // 10**6),
    ("docs/LIMITS.md", r"one text of more than (\S+) bytes at a time", "pk_posting", "MOST_LENT"),
    ("docs/LIMITS.md", r"in which one of (\S+) or more", "pk_phrase", "ENTRIES_PER_NUMBER"),
    ("docs/LIMITS.md", r"where they have (\S+ MiB) or less", "pk_merge", "MOST_KEPT_LISTS"),
    ("docs/LIMITS.md", r"longest of them; (\S+ KiB);", None,
     lambda of: of("pk_merge", "SPAN_BYTES") + of("pk_merge", "WRITE")),
    ("docs/LIMITS.md", r"; (\S+ KiB) for each segment of kind 2", "pk_join", "READ_AHEAD"),
    ("docs/LIMITS.md", r"dictionary, from (\S+) bytes to 4 KiB", "pk_join", "LEAST_WORDS_AHEAD"),
    ("docs/LIMITS.md", r"from 256 bytes to (\S+ KiB);", "pk_join", "WORDS_AHEAD"),
    ("docs/LIMITS.md", r"past (\S+) of them", None,
     lambda of: of("pk_join", "ALL_AHEAD") // of("pk_join", "READ_AHEAD")),
    ("docs/LIMITS.md", r"of them (\S+ MiB) of all", "pk_join", "ALL_AHEAD"),
    ("docs/LIMITS.md", r"deleted of a segment, at most (\S+) for each", "pk_join", "SPARSE"),
    ("docs/LIMITS.md", r"is kept: (\S+) blocks at most", "pk_command", "CACHE_BLOCKS"),
    ("docs/LIMITS.md", r"blocks at most, (\S+ KiB)", None,
     lambda of: of("pk_command", "CACHE_BLOCKS") * 544),
    ("docs/LIMITS.md", r"the first (\S+) segments that", "pk_lookup", "MOST_TABLES"),
    ("docs/LIMITS.md", r"(\S+ KiB) for each of the first", None,
     lambda of: of("pk_lookup", "TABLE_KEYS") * of("pk_keys", "KEY_BYTES")),
    ("docs/LIMITS.md", r"has (\S+ KiB) or more and was searched", "pk_lookup", "SMALLEST"),
    ("docs/LIMITS.md", r"was searched: (\S+ MiB) at most", None,
     lambda of: of("pk_lookup", "MOST_TABLES") * of("pk_lookup", "TABLE_KEYS")
     * of("pk_keys", "KEY_BYTES")),
    ("docs/LIMITS.md", r"has a dictionary of (\S+) bytes or less", "pk_lookup",
     "LONGEST_DICTIONARY"),
    ("docs/LIMITS.md", r"once for each (\S+) of these", "pk_lookup", "BYTES_A_LOOK"),
    ("docs/DECISIONS.md", r"has stretches of (\S+) bytes", "pk_lookup", "BYTES_A_LOOK"),
    ("docs/LIMITS.md", r"32 more for each (\S+) words", "pk_filter", "WORDS_PER_BLOCK"),
    ("docs/LIMITS.md", r"for each 16 words: (\S+ MiB) at most", "pk_lookup", "MOST_FILTER_BYTES"),
    ("docs/LIMITS.md", r"page cache of a session \| (\S+ KiB)", None,
     lambda of: of("pk_command", "PAGES") * 40 + of("pk_pages", "MOST_NOTED") * 8),
    ("docs/LIMITS.md", r"and (\S+) bytes for each page", "pk_pages", "PAGE"),
    ("docs/LIMITS.md", r"that is kept: (\S+ MiB) at most", None,
     lambda of: of("pk_command", "PAGES") * of("pk_pages", "PAGE")),
    ("docs/LIMITS.md", r"A disk of fewer than (\S+) units", "pk_disk", "LEAST_UNITS"),
    ("docs/FORMATS.md", r"cut into units of (\S+) bytes", "pk_disk", "UNIT"),
    ("docs/FORMATS.md", r"bytes, at most (\S+) of them", "pk_disk", "MAX_UNITS"),
    ("docs/FORMATS.md", r"body A, (\S+) bytes", "pk_manifest", "BODY_SIZE"),
    ("docs/FORMATS.md", r"from (\S+) on \| extents", "pk_disk", "FIRST_UNIT"),
    ("docs/FORMATS.md", r"its byte is `(\S+)`", "pk_manifest", "OPEN"),
    ("docs/FORMATS.md", r"closed by writing `(\S+)`", "pk_manifest", "CLOSED"),
    ("docs/FORMATS.md", r"in the body, at most (\S+) \|", "pk_manifest", "MOST_INSIDE"),
    ("docs/FORMATS.md", r"extent of its own, at most (\S+) \|", "pk_manifest", "MOST_IN_TABLE"),
    ("docs/FORMATS.md", r"u32, at most (\S+) in version 1", "pk_manifest", "MOST_INSIDE"),
    ("docs/FORMATS.md", r"in version 1 and (\S+) in version 2", "pk_model", "MAX_SEGMENTS"),
    ("docs/FORMATS.md", r"its units are (\S+) or more", "pk_disk", "LEAST_UNITS"),
    ("docs/FORMATS.md", r"\(1 to (\S+), a deletion", "pk_manifest", "MAX_BYTES"),
    ("docs/FORMATS.md", r"groups of (\S+); the last", "pk_dict", "GROUP"),
    ("docs/FORMATS.md", r"kind, u32, 1 or (\S+)", "pk_segment", "INDEXED"),
    ("docs/DECISIONS.md", r"A body of (\S+) bytes", "pk_manifest", "BODY_SIZE"),
    ("docs/DECISIONS.md", r"The reply buffer has (\S+) bytes", "pk_shell", "OUTBOX_BYTES"),
    ("docs/DECISIONS.md", r"fewer than (\S+) pages", "pk_command", "PAGES"),
    ("docs/DECISIONS.md", r"more than (\S+) times as far apart", "pk_join", "SPARSE"),
    ("docs/DECISIONS.md", r"of it ahead, (\S+) to", "pk_join", "LEAST_WORDS_AHEAD"),
    ("docs/DECISIONS.md", r"of it ahead, 256 to (\S+) bytes", "pk_join", "WORDS_AHEAD"),
    ("docs/ARCHITECTURE.md", r"reads up to (\S+) bytes a call", "pk_shell", "CHUNK_BYTES"),
    ("docs/ARCHITECTURE.md", r"so (\S+) bytes are read ahead", "pk_join", "READ_AHEAD"),
    ("docs/ARCHITECTURE.md", r"its first (\S+) bytes", "pk_open", "READ_AHEAD"),
    ("docs/LIMITS.md", r"; (\S+) bytes of a segment", "pk_open", "READ_AHEAD"),
    ("docs/ARCHITECTURE.md", r"all of them have at most (\S+ MiB)", "pk_merge", "MOST_KEPT_LISTS"),
    ("docs/ARCHITECTURE.md", r"keeps pages of (\S+) bytes", "pk_pages", "PAGE"),
    ("docs/ARCHITECTURE.md", r"body in force, (\S+) bytes", "pk_manifest", "BODY_SIZE"),
    ("docs/ARCHITECTURE.md", r"more than (\S+) times as long", None, lambda of: gallops_from()),
    ("crates/pk_sets/src/lib.rt", r"than (\S+) times as long", None, lambda of: gallops_from()),
    ("crates/pk_search/src/lib.rt", r"more than (\S+) times as long", None,
     lambda of: gallops_from()),
    ("crates/pk_filedisk/src/lib.rt", r"The file has (\S+) to", "pk_disk", "LEAST_UNITS"),
    ("crates/pk_filedisk/src/lib.rt", r"has 64 to (\S+) whole", "pk_disk", "MAX_UNITS"),
    ("crates/pk_filedisk/src/lib.rt", r"whole units of (\S+) bytes", "pk_disk", "UNIT"),
    ("crates/pk_space/src/lib.rt", r"from unit (\S+) on", "pk_disk", "FIRST_UNIT"),
    ("docs/ADMINISTRATION.md", r"a store has at most (\S+)\.", "pk_model", "MAX_SEGMENTS"),
    ("docs/ADMINISTRATION.md", r"a commit met (\S+) segments", "pk_model", "MAX_SEGMENTS"),
    ("docs/ADMINISTRATION.md", r"numbers end at (\S+)", None,
     lambda of: of("pk_model", "END_OF_NUMBERS") - 1),
    ("man/pk_find.1", r"units of (\S+) bytes", "pk_disk", "UNIT"),
    ("man/pk_find.1", r"bytes, from (\S+) to", "pk_disk", "LEAST_UNITS"),
    ("man/pk_find.1", r"from 64 to (\S+),", "pk_disk", "MAX_UNITS"),
    ("crates/pk_disk/src/lib.rt", r"rounded down, at most (\S+)", "pk_disk", "MAX_UNITS"),
    ("crates/pk_dict/src/lib.rt", r"They read (\S+) bytes at once", "pk_dict", "WINDOW"),
    ("crates/pk_keys/src/lib.rt", r"A table of (\S+) keys", "pk_lookup", "TABLE_KEYS"),
    ("crates/pk_manifest/src/lib.rt", r"its (\S+) bytes \(`spelling`", "pk_manifest", "BODY_SIZE"),
    ("crates/pk_manifest/src/lib.rt", r"if its (\S+) bytes and its table",
     "pk_manifest", "BODY_SIZE"),
    ("crates/pk_manifest/src/lib.rt", r"at most (\S+); in version 2 they",
     "pk_manifest", "MOST_INSIDE"),
    ("crates/pk_manifest/src/lib.rt", r"of its own, at most (\S+)", "pk_manifest", "MOST_IN_TABLE"),
    ("crates/pk_manifest/src/lib.rt", r"u32, at most (\S+), in version 2",
     "pk_manifest", "MOST_INSIDE"),
    ("crates/pk_manifest/src/lib.rt", r"in version 2 at most (\S+) \|",
     "pk_manifest", "MOST_IN_TABLE"),
    ("crates/pk_manifest/src/lib.rt", r"lengths of 1 to (\S+) bytes", "pk_manifest", "MAX_BYTES"),
    ("crates/pk_manifest/src/lib.rt", r"from unit (\S+) on \|", "pk_disk", "FIRST_UNIT"),
    ("crates/pk_manifest/src/lib.rt", r"units from (\S+) to the disk's", "pk_disk", "FIRST_UNIT"),
    ("crates/pk_manifest/src/lib.rt", r"writes at or past unit (\S+),", "pk_disk", "FIRST_UNIT"),
    ("crates/pk_posting/src/lib.rt", r"A list has up to (\S+) numbers",
     "pk_posting", "LONGEST_LIST"),
    ("crates/pk_dead/src/lib.rt", r"there are (\S+) at most", "pk_posting", "LONGEST_LIST"),
    ("crates/pk_pages/src/lib.rt", r"a page \| (\S+) bytes", "pk_pages", "PAGE"),
    ("crates/pk_pages/src/lib.rt", r"a slot takes (\S+) bytes", "pk_pages", "PAGE"),
    ("crates/pk_pages/src/lib.rt", r"has place `p` modulo (\S+) alone", "pk_pages", "MOST_NOTED"),
    ("crates/pk_pages/src/lib.rt", r"a slot and (\S+) for notes", None,
     lambda of: of("pk_pages", "MOST_NOTED") * 8),
    ("crates/pk_phrase/src/lib.rt", r"A text of (\S+) bytes or less", "pk_posting", "MOST_LENT"),
    ("crates/pk_phrase/src/lib.rt", r"one document of (\S+) or more",
     "pk_phrase", "ENTRIES_PER_NUMBER"),
    ("crates/pk_segment/src/lib.rt", r"at most (1,\S+)\.", "pk_model", "MAX_SEGMENT_BYTES"),
    ("crates/pk_segment/src/lib.rt", r"one text, at most (\S+) bytes", "pk_posting", "MOST_LENT"),
    ("crates/pk_merge/src/lib.rt", r"posting lists, up to (\S+) bytes",
     "pk_merge", "MOST_KEPT_LISTS"),
    ("crates/pk_merge/src/lib.rt", r"read at once \| (\S+) bytes", "pk_merge", "SPAN_BYTES"),
    ("crates/pk_merge/src/lib.rt", r"to be written \| (\S+) bytes", "pk_merge", "WRITE"),
    ("crates/pk_merge/src/lib.rt", r"of its dictionary at most (\S+) bytes", "pk_join", "WORDS_AHEAD"),
    ("crates/pk_merge/src/lib.rt", r"of its lists \| (\S+) bytes to read", "pk_join", "READ_AHEAD"),
    ("crates/pk_merge/src/lib.rt", r"up to the next one, at most (\S+) \|", "pk_join", "SPARSE"),
    ("crates/pk_open/src/lib.rt", r"An opening reads (\S+) bytes", "pk_open", "READ_AHEAD"),
    ("crates/pk_shell/src/lib.rt", r"`ShellFault::TooManyReads` \| (\S+) bytes",
     "pk_shell", "MAX_READS"),
    ("crates/pk_arguments/src/lib.rt", r"a file of N units of (\S+) bytes", "pk_disk", "UNIT"),
    ("crates/pk_arguments/src/lib.rt", r"may have, (\S+) to", "pk_disk", "LEAST_UNITS"),
    ("crates/pk_arguments/src/lib.rt", r"may have, 64 to (\S+)\. A", "pk_disk", "MAX_UNITS"),
    ("crates/pk_command/src/lib.rt", r"makes a file of N units of (\S+) bytes", "pk_disk", "UNIT"),
    ("crates/pk_command/src/lib.rt", r"fewer than (\S+) whole units", "pk_disk", "LEAST_UNITS"),
    ("crates/pk_command/src/lib.rt", r"whole units, or more than (\S+) \|", "pk_disk", "MAX_UNITS"),
    ("crates/pk_command/src/lib.rt", r"there were (\S+) reads", "pk_shell", "MAX_READS"),
    ("crates/pk_terms/src/lib.rt", r"a word beyond (\S+) of them", "pk_model", "END_OF_NUMBERS"),
]

# The same of the limits of the client and of tools, by their modules.
R, S, T = "clients/python/rubewola/", "clients/python/rubewola_shards/", "tools/"
OF_PYTHON = [
    ("docs/LIMITS.md", r"document's text with its words \| (\S+) bytes",
     R + "documents", "MOST_BYTES"),
    ("docs/LIMITS.md", r"but for parts \| (\S+) bytes", R + "documents", "MOST_TAIL_BYTES"),
    ("docs/LIMITS.md", r"a mail's head \| (\S+) characters", R + "mime", "LONGEST_FIELD"),
    ("docs/LIMITS.md", r"in a query \| (\S+) characters", R + "words", "LONGEST_NAME"),
    ("docs/LIMITS.md", r"range of days \| (\S+) to",
     R + "days", lambda of: of(R + "days", "RANGED")[0]),
    ("docs/LIMITS.md", r"days \| 1970 to (\S+)",
     R + "days", lambda of: of(R + "days", "RANGED")[1]),
    ("docs/LIMITS.md", r"flags in a query \| (\S+)", R + "fields", "MOST_FLAGS"),
    ("docs/LIMITS.md", r"a batch(?: of a load)? \| (\S+) documents",
     R + "loading", "BATCH_DOCUMENTS"),
    ("docs/LIMITS.md", r"4,096 documents, (\S+) bytes", R + "loading", "BATCH_BYTES"),
    ("docs/LIMITS.md", r"decodes at once \| (\S+) items", R + "sources", "CHUNK_ITEMS"),
    ("docs/LIMITS.md", r"2,048 items, (\S+) bytes", R + "sources", "CHUNK_BYTES"),
    ("docs/LIMITS.md", r"or one item \| (\S+) such", R + "decoding", "AHEAD"),
    ("docs/LIMITS.md", r"in one another \| (\S+)", R + "jsonlines", "_DEEPEST"),
    ("docs/LIMITS.md", r"before those within it \| (\S+) characters", R + "jsonlines",
     "LONGEST_OUTER"),
    ("docs/LIMITS.md", r"begins a mail of a box \| (\S+) bytes", R + "mailboxes", "_LONGEST_LINE"),
    ("docs/LIMITS.md", r"found, above (\S+ MiB)", R + "results", "IN_MEMORY"),
    ("docs/LIMITS.md", r"batches on their way \| (\S+) of", S + "loading", "ON_THEIR_WAY"),
    ("docs/LIMITS.md", r"an answer of a shard \| (\S+) s", S + "fleet", "ASKED"),
    ("docs/LIMITS.md", r"to a batch of a load (\S+) s", S + "fleet", "LOADED"),
    ("docs/LIMITS.md", r"asked for at once \| (\S+) \|", S + "answers", "SHOWN_AT_ONCE"),
    ("docs/MACHINES.md", r"takes in a row; (\S+) where", S + "archive", "BLOCK"),
    ("docs/LOADERS.md", r"document has (\S+) seconds", R + "decoding", "SECONDS"),
    ("docs/LOADERS.md", r"its process (\S+ GiB) of memory", R + "decoding", "MEMORY"),
    ("docs/LOADERS.md", r"Of a mail (\S+ MiB)", R + "mails", "LONGEST_MAIL"),
    ("docs/LOADERS.md", r"an object of JSON (\S+ MiB)", R + "jsonlines", "LONGEST_OBJECT"),
    ("docs/LOADERS.md", r"of its values (\S+) are", R + "jsonlines", "MOST_VALUES"),
    ("docs/LOADERS.md", r"mail's parts (\S+) are", R + "mime", "MOST_PARTS"),
    ("docs/LOADERS.md", r"marks on a letter (\S+) stay", R + "letters", "MOST_MARKS"),
    ("docs/LOADERS.md", r"more than (\S+) bytes, each", R + "mails", "MOST_HEAD_BYTES"),
    ("docs/LOADERS.md", r"names the first (\S+),", R + "loading", "NAMED"),
    ("docs/LOADERS.md", r"or up to (\S+) after a long", R + "following", "LONGEST"),
    ("docs/MAILS.md", r"more than (\S+) times its words", R + "mails", "_RICHER"),
    ("docs/MAILS.md", r"it gets (\S+) seconds", R + "filters", "SECONDS"),
    ("docs/MAILS.md", r"20 seconds, (\S+) of a processor", R + "filters", "CPU_SECONDS"),
    ("docs/MAILS.md", r"processor, (\S+ GiB) of memory", R + "filters",
     lambda of: of(R + "filters", "MEMORY_KB") * 1024),
    ("docs/MAILS.md", r"memory and (\S+ KiB) of output", R + "filters", "MOST_BYTES"),
    ("docs/MAILS.md", r"Of a mail (\S+) files", R + "filters", "MOST_FILES"),
    ("docs/MAILS.md", r"are read, in (\S+) seconds", R + "filters", "MAIL_SECONDS"),
    ("docs/MAILS.md", r"after (\S+) times in a row", R + "filters", "MOST_LATE"),
    ("docs/ADMINISTRATION.md", r"a packed one (\S+) times", R + "files", "UNPACKED"),
    ("docs/ADMINISTRATION.md", r"from (\S+ MiB) to", R + "loading",
     lambda of: of(R + "loading", "FIRST_UNITS") * of(R + "store", "UNIT")),
    ("docs/ADMINISTRATION.md", r"MiB to (\S+ TiB)", R + "store",
     lambda of: of(R + "store", "MOST_UNITS") * of(R + "store", "UNIT")),
    ("docs/ADMINISTRATION.md", r"its units, up to (\S+ TiB)", R + "store",
     lambda of: of(R + "store", "MOST_UNITS") * of(R + "store", "UNIT")),
    ("docs/ADMINISTRATION.md", r"segment of the (\S+) neighbours", R + "commits", "MERGED"),
    ("docs/GUIDE.md", r"first and (\S+) a page", R + "views", "AT_ONCE"),
    ("docs/GUIDE.md", r"up to its (\S+)th character", R + "views", "LONGEST"),
    ("docs/GUIDE.md", r"says nothing for (\S+) seconds", R + "serving", "IDLE"),
    ("docs/GUIDE.md", r"or takes (\S+) for a request", R + "serving", "LONGEST"),
    ("docs/GUIDE.md", r"more than (\S+) at once", R + "serving", "CLIENTS"),
    ("docs/QUERIES.md", r"at most (\S+) different ones", R + "fields", "MOST_FLAGS"),
    ("man/rubewola.1", r"commit each (\S+) documents", R + "loading", "BATCH_DOCUMENTS"),
    ("man/rubewola.1", r"4096 documents or (\S+ MiB)", R + "loading", "BATCH_BYTES"),
    ("man/rubewola.1", r"and at least (\S+ MiB)", R + "loading",
     lambda of: of(R + "loading", "FIRST_UNITS") * of(R + "store", "UNIT")),
    ("docs/TESTING.md", r"plays (\S+) sessions", T + "kill_test", "KILLS"),
    ("docs/TESTING.md", r"SIGKILL at (\S+) points", T + "kill_test", "KILLS"),
    ("docs/TESTING.md", r"(\S+) commands, the program killed", T + "kill_test", "COMMANDS"),
    ("docs/TESTING.md", r"(\d+) growths", T + "kill_test", "GROWTHS"),
    ("docs/TESTING.md", r"Behind (\S+) minutes", T + "smoke",
     lambda of: of(T + "smoke", "BEGUN_FOR") // 60),
    ("docs/PERFORMANCE.md", r"is to take (\S+) minutes", T + "gate_time", "BUDGET_MINUTES"),
    ("man/rubewola-shards.1", r"A shard has (\S+) seconds", S + "fleet", "ASKED"),
    ("man/rubewola-shards.1", r"for an answer, (\S+) for a batch", S + "fleet", "LOADED"),
]


def text_of(path):
    return (TOP / path).read_text("utf-8")


def rows(text):
    """The cells of the rows of the tables of a text."""
    return [[cell.strip() for cell in line.strip("|").split(" | ")] for line in text.splitlines()
            if line.startswith("| ")]


def number(text):
    """A number as documents write it: `1,024`, `2^10`, `1 KiB`, a byte as `A7`, or a word."""
    text = text.strip(".,;")
    if text.lower() in WORDS:
        return WORDS[text.lower()]
    if re.fullmatch("00|[0-9A-F][A-F]|[A-F][0-9A-F]", text):
        return int(text, 16)
    amount, _, unit = text.replace(",", "").replace("_", "").partition(" ")
    base, _, power = amount.partition("^")
    return int(base) ** int(power or 1) * UNITS[unit]


def flat(path):
    """A text in one line, a header without the signs of its lines."""
    return " ".join(re.sub(r"\n//!", "\n", text_of(path)).split())


def constants(crate):
    """The numbers that have a name in a crate's code."""
    found = {}
    for file in (TOP / "crates" / crate / "src").rglob("*.rt"):
        for name, value in re.findall(r"^(?:pub(?:\(crate\))? )?const (\w+): \w+ = ([^;]+);",
                                      file.read_text("utf-8"), re.M):
            shift = re.fullmatch(r"(\d+) << (\d+)", value)
            if shift:
                found[name] = int(shift[1]) << int(shift[2])
            elif re.fullmatch(r"[\d_]+|0x[\dA-F]+", value):
                found[name] = int(value, 0 if "x" in value else 10)
    return found


def gallops_from():
    """How many times as long as the other a list is at least that is galloped over."""
    told = re.search(r"IsTrue result ↔ \((\d+) \* shorter < longer\)",
                     text_of("crates/pk_sets/src/intersecting.rt"))
    return int(told[1])


def constant(crate, name):
    return constants(crate)[name]


def of_python(module, name):
    """A number, or numbers, that have a name in a module in Python."""
    for node in ast.parse(text_of(f"{module}.py")).body:
        if isinstance(node, ast.Assign):
            target, = node.targets
            names, values = ((target.elts, node.value.elts) if isinstance(target, ast.Tuple)
                             and isinstance(node.value, ast.Tuple) else ([target], [node.value]))
            for each, value in zip(names, values, strict=False):
                if getattr(each, "id", None) == name:
                    return ast.literal_eval(value)
    raise KeyError(name)


class Limits(unittest.TestCase):
    """The limits of docs/LIMITS.md, and wherever else one is told."""

    def named(self):
        """The limits with their crates and the numbers beside them."""
        for cells in rows(text_of("docs/LIMITS.md")):
            for cell in cells:
                told = re.fullmatch(r"(`[A-Z_]+`(?:, `[A-Z_]+`)*) of `(\w+)`", cell)
                if told:
                    numbers = {number(each) for each in NUMBER.findall(cells[1])}
                    yield from ((told[2], name, numbers) for name in QUOTED.findall(told[1]))

    def test_the_table(self):
        self.assertGreater(len(list(self.named())), 25)
        for crate, name, numbers in self.named():
            with self.subTest(crate=crate, name=name):
                self.assertIn(constants(crate)[name], numbers)

    def test_each_limit_has_a_row(self):
        told = {(crate, name) for crate, name, _ in self.named()}
        for crate in ("pk_model", "pk_query"):
            text = text_of(f"crates/{crate}/src/limits.rt")
            for name in re.findall(r"pub const (\w+)", text):
                self.assertIn((crate, name), told)

    def test_each_limit_is_the_definitions(self):
        for crate in ("pk_model", "pk_query"):
            page = text_of(f"crates/{crate}/specs/Limits.antt")
            told = dict(re.findall(r"^(\w+) = (\d+)$", page, re.M))
            text = text_of(f"crates/{crate}/src/limits.rt")
            named = {name.lower(): str(number(value))
                     for name, value in re.findall(r"const (\w+): \w+ = ([\d_]+);", text)}
            self.assertEqual(named, told)

    def assert_told(self, path, around, wanted):
        """A document has the number wherever it says so."""
        with self.subTest(path=path, around=around):
            found = re.findall(around, flat(path))
            self.assertTrue(found)
            self.assertEqual({number(each) for each in found}, {wanted})

    def test_wherever_it_is_told(self):
        for path, around, crate, name in TOLD:
            self.assert_told(path, around, constant(crate, name) if crate else name(constant))

    def test_those_of_modules(self):
        for path, around, module, name in OF_PYTHON:
            value = of_python(module, name) if isinstance(name, str) else name(of_python)
            self.assert_told(path, around, value)

    def test_the_longest_range(self):
        told, = re.findall(r"the query of a range \| (\S+) bytes", text_of("docs/LIMITS.md"))
        query = days.query("1970-01-01T01..2099-12-31T22", date(2026, 11, 27))
        self.assertEqual(len(query.encode()), number(told))

    def test_the_client_has_the_program_s_version(self):
        code = text_of("crates/pk_arguments/src/command_line.rt")
        self.assertEqual(re.search(r'const VERSION: &str = "(.*)"', code)[1], VERSION)


if __name__ == "__main__":
    unittest.main()
