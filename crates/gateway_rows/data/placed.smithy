$version: "2.0"

namespace placed

/// Members of each type in each place of a message.
service Placed {
    version: "1"
    operations: [Path, Deep, Deeper, Fixed, Spelled, Query, Both, Keys, Fields, Owned, Contents, Csv, Json, Odd, Inner, Stamps, Parts, Typed, Within, Seen, Hiding]
}

@http(method: "GET", uri: "/path/{tiny}/{whole}/{large}/{sent}/{epoch}")
operation Path {
    input := {
        @required
        @httpLabel
        tiny: Byte

        @required
        @httpLabel
        whole: Integer

        @required
        @httpLabel
        large: Long

        @required
        @httpLabel
        sent: Sent

        @required
        @httpLabel
        epoch: Epoch
    }
}

@http(method: "GET", uri: "/deep/{first}/{rest+}")
operation Deep {
    input: Deeply
}

@http(method: "GET", uri: "/deep/{first}/{rest+}/a b/c")
operation Deeper {
    input: Deeply
}

@http(method: "GET", uri: "/deep/fixed/{rest+}")
operation Fixed {
    input := {
        @required
        @httpLabel
        rest: String
    }
}

structure Deeply {
    @required
    @httpLabel
    rest: String

    @required
    @httpLabel
    first: String
}

@http(method: "GET", uri: "/a b/é%/~?c d=e f&g%=%20&é")
operation Spelled {}

@http(method: "GET", uri: "/query")
operation Query {
    input := {
        @httpQuery("tiny")
        tiny: Byte

        @httpQuery("whole")
        whole: Integer

        @httpQuery("large")
        large: Long

        @httpQuery("level")
        level: Level

        @httpQuery("word")
        word: Word

        @httpQuery("sent")
        sent: Sent

        @httpQuery("tinies")
        tinies: Tinies

        @httpQuery("smalls")
        smalls: Smalls

        @httpQuery("larges")
        larges: Larges

        @httpQuery("levels")
        levels: Levels

        @httpQuery("flags")
        flags: Flags

        @httpQuery("sents")
        sents: Sents

        @httpQuery("epochs")
        epochs: Epochs
    }
}

@http(method: "GET", uri: "/both?lit=1&lit=2&flag")
operation Both {
    input := {
        @httpQueryParams
        others: Many

        @httpQuery("named")
        named: Texts

        @httpQuery("lit")
        lit: Texts

        @httpQuery("one")
        one: Integer
    }
}

@http(method: "GET", uri: "/keys")
operation Keys {
    input := {
        @httpQueryParams
        all: Strings
    }
}

@http(method: "POST", uri: "/fields")
operation Fields {
    input: Fielded
    output: Fielded
}

structure Fielded {
    @httpHeader("x-text")
    text: String

    @httpHeader("x-tiny")
    tiny: Byte

    @httpHeader("x-small")
    small: Short

    @httpHeader("x-whole")
    whole: Integer

    @httpHeader("x-large")
    large: Long

    @httpHeader("x-level")
    level: Level

    @httpHeader("x-word")
    word: Word

    @httpHeader("x-flag")
    flag: Boolean

    @httpHeader("x-when")
    when: Timestamp

    @httpHeader("x-date")
    date: Date

    @httpHeader("x-epoch")
    epoch: Epoch

    @httpHeader("x-texts")
    texts: Texts

    @httpHeader("x-tinies")
    tinies: Tinies

    @httpHeader("x-smalls")
    smalls: Smalls

    @httpHeader("x-wholes")
    wholes: Wholes

    @httpHeader("x-larges")
    larges: Larges

    @httpHeader("x-levels")
    levels: Levels

    @httpHeader("x-words")
    words: Words

    @httpHeader("x-flags")
    flags: Flags

    @httpHeader("x-whens")
    whens: Whens

    @httpHeader("x-dates")
    dates: Dates

    @httpHeader("x-epochs")
    epochs: Epochs

    @httpPrefixHeaders("x-p-")
    prefixed: Strings
}

@http(method: "POST", uri: "/owned")
operation Owned {
    input: Owner
    output: Owner
}

structure Owner {
    @httpPrefixHeaders("")
    rest: Strings

    @httpHeader("X-Own")
    own: String
}

@http(method: "POST", uri: "/contents")
operation Contents {
    input := {
        @httpPrefixHeaders("Content-")
        contents: Strings
    }
}

@http(method: "POST", uri: "/csv")
operation Csv {
    input: Table
    output: Table
}

structure Table {
    @httpPayload
    table: Rows
}

@mediaType("text/csv; header=present")
string Rows

@http(method: "POST", uri: "/json")
operation Json {
    input: Said
    output: Said
}

structure Said {
    @httpPayload
    said: Bytes
}

@mediaType("application/json")
blob Bytes

@http(method: "POST", uri: "/odd")
operation Odd {
    input: Oddly
    output: Oddly
}

structure Oddly {
    @httpPayload
    @mediaType("a/b\r\nx: y")
    text: String
}

@http(method: "POST", uri: "/inner/{id}")
operation Inner {
    input := {
        @required
        @httpLabel
        id: String

        @required
        @httpPayload
        inner: Bound
    }
    output := {
        @httpPayload
        inner: Bound
    }
}

/// What binds these members doesn't count below a payload.
structure Bound {
    @httpHeader("x-in")
    in: String

    @httpQuery("q")
    q: Integer

    @required
    @httpLabel
    id: String
}

@http(method: "POST", uri: "/stamps/{id}")
operation Stamps {
    input := {
        sent: Sent

        @required
        @httpLabel
        id: String

        sents: Sents

        named: SentByName

        either: Either

        date: Date

        epoch: Epoch
    }
}

map SentByName {
    key: String
    value: Sent
}

union Either {
    sent: Sent
    text: String
}

@http(method: "POST", uri: "/parts")
operation Parts {
    output := {
        @httpResponseCode
        code: Integer

        @httpPayload
        data: Blob

        @httpHeader("x-text")
        text: String
    }
    errors: [Told, Bare]
}

@error("client")
@httpError(422)
structure Told {
    @httpPayload
    told: Telling

    @httpHeader("x-size")
    size: Integer

    @httpPrefixHeaders("x-t-")
    more: Strings
}

structure Telling {
    n: Integer

    name: String
}

@error("server")
@httpError(599)
structure Bare {
    @httpHeader("x-why")
    why: Word
}

@http(method: "POST", uri: "/typed")
operation Typed {
    input := {
        @httpHeader("x-m")
        m: Marked

        @httpHeader("x-n")
        @mediaType("")
        n: String
    }
}

list Marked {
    member: Rows
}

@http(method: "POST", uri: "/within")
operation Within {
    output := {
        within: Coded
    }
    errors: [Coded]
}

@http(method: "GET", uri: "/hidden/{name}")
operation Seen {
    input := {
        @required
        @httpLabel
        name: String
    }
}

/// Goes before the one before it, and isn't served.
@http(method: "GET", uri: "/hidden/items")
operation Hiding {
    input := {
        @httpPayload
        items: Texts
    }
}

@error("client")
structure Coded {
    @httpResponseCode
    c: Integer
}

enum Word {
    PLAIN = "plain"
    COMMA = "a, \"b\""
    BLANK = " x"
    LINES = "a\r\nx: y"
    ACCENT = "é"
}

intEnum Level {
    LOW = -1
    HIGH = 7
}

@timestampFormat("http-date")
timestamp Sent

@timestampFormat("date-time")
timestamp Date

@timestampFormat("epoch-seconds")
timestamp Epoch

list Texts {
    member: String
}

list Tinies {
    member: Byte
}

list Smalls {
    member: Short
}

list Wholes {
    member: Integer
}

list Larges {
    member: Long
}

list Levels {
    member: Level
}

list Words {
    member: Word
}

list Flags {
    member: Boolean
}

list Whens {
    member: Timestamp
}

list Dates {
    member: Date
}

list Epochs {
    member: Epoch
}

list Sents {
    member: Sent
}

map Strings {
    key: String
    value: String
}

map Many {
    key: String
    value: Texts
}
