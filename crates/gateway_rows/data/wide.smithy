$version: "2.0"

namespace wide

/// Shapes of each kind, as input and as output.
service Wide {
    version: "1"
    operations: [Put, Must, Fill, Ping, Bare, Price, Typed, Failing]
    errors: [Busy]
}

operation Put {
    input: All
    output: All
    errors: [Full, Gone, Broken]
}

structure All {
    text: String

    short: Letters

    @length(min: 3)
    longer: Letters

    lower: Lower

    color: Color

    level: Level

    flag: Boolean

    tiny: Byte

    small: Short

    whole: Ranged

    large: Long

    data: Octets

    when: Timestamp

    @timestampFormat("date-time")
    date: Timestamp

    sent: Sent

    texts: Texts

    holes: Holes

    once: Once

    stamps: Stamps

    counts: Counts

    gaps: Gaps

    pick: Pick

    tree: Tree

    @jsonName("other")
    named: String
}

@length(min: 1, max: 4)
string Letters

@pattern("^[a-z]*$")
string Lower

enum Color {
    RED = "red"
    BLUE = "blue"
}

intEnum Level {
    LOW = 1
    HIGH = 7
}

@range(min: -5, max: 5)
integer Ranged

@length(max: 3)
blob Octets

@timestampFormat("http-date")
timestamp Sent

@length(max: 3)
list Texts {
    @length(min: 1)
    member: String
}

@sparse
list Holes {
    member: Integer
}

@uniqueItems
list Once {
    member: Octets
}

@uniqueItems
list Stamps {
    member: Timestamp
}

@length(max: 2)
map Counts {
    key: Letters
    value: Integer
}

@sparse
map Gaps {
    key: String
    value: Boolean
}

union Pick {
    text: Lower
    count: Integer
    tree: Tree
    nothing: Unit
}

structure Tree {
    @required
    name: String

    kids: Trees

    when: Timestamp
}

list Trees {
    member: Tree
}

/// Members that must be there.
operation Must {
    input := {
        @required
        a: String

        @required
        b: Integer

        c: Pick

        @required
        d: Tree
    }
    output := {
        @required
        done: Boolean
    }
}

/// Members that are filled.
operation Fill {
    input: Filled
    output: Filled
}

structure Filled {
    @required
    count: Integer = 1

    text: String = ""

    texts: Texts = []

    counts: Counts = {}

    flag: Boolean = true

    when: Timestamp = "1970-01-01T00:00:01Z"

    data: Blob = "AAE="

    color: Color = "blue"

    @range(max: 3)
    past: Integer = 5

    empty: String = null

    plain: String

    inner: Inner
}

structure Inner {
    depth: Integer = 7
}

operation Ping {}

/// Structures without members, which aren't the unit type.
operation Bare {
    input := {}
    output := {}
}

operation Price {
    input := {
        a: String
    }
    output := {
        parts: Prices
    }
}

list Prices {
    member: Double
}

operation Typed {
    input := {
        inner: Tagged
    }
}

structure Tagged {
    __type: String
}

operation Failing {
    errors: [Odd]
}

@error("client")
structure Full {
    message: String
}

@error("client")
structure Gone {}

@error("server")
structure Broken {
    @required
    code: Integer

    when: Timestamp
}

@error("server")
structure Busy {
    message: String
}

@error("server")
structure Odd {
    value: Document
}
