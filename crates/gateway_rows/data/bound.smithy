$version: "2.0"

namespace bound

/// Members in each place of a message.
service Bound {
    version: "1"
    operations: [Labels, Files, Tail, Whole, Ask, Named, Lists, Fields, Every, Octets, Note, Paint, Plain, Doc, Choose, Coded, Silent, Mixed, Unhttp, Odd, Media, Kept, Items, Failing, Ping, Bare]
    errors: [Busy]
}

@http(method: "GET", uri: "/labels/{text}/{number}/{flag}/{when}/{color}/{level}")
operation Labels {
    input := {
        @required
        @httpLabel
        text: Short

        @required
        @httpLabel
        number: Small

        @required
        @httpLabel
        flag: Boolean

        @required
        @httpLabel
        when: Timestamp

        @required
        @httpLabel
        color: Color

        @required
        @httpLabel
        level: Level
    }
}

@http(method: "GET", uri: "/files/{path+}")
operation Files {
    input := {
        @required
        @httpLabel
        path: String
    }
}

@http(method: "GET", uri: "/files/{path+}/tail")
operation Tail {
    input := {
        @required
        @httpLabel
        path: String
    }
}

@http(method: "GET", uri: "/files/all%/é?view=full&bare")
operation Whole {}

@http(method: "GET", uri: "/ask?fixed=1&fixed=1&bare")
operation Ask {
    input := {
        @httpQuery("text")
        text: Short

        @httpQuery("texts")
        texts: Texts

        @httpQuery("n")
        number: Small

        @httpQuery("ns")
        numbers: Numbers

        @httpQuery("flag")
        flag: Boolean

        @httpQuery("when")
        when: Timestamp

        @httpQuery("epoch")
        @timestampFormat("epoch-seconds")
        epoch: Timestamp

        @httpQuery("dates")
        dates: Dates

        @httpQuery("colors")
        colors: Colors

        @httpQuery("fixed")
        fixed: Texts

        @httpQuery("a b&c")
        odd: String
    }
}

@http(method: "POST", uri: "/named?literal=x")
operation Named {
    input := {
        @httpQueryParams
        others: Strings

        @httpQuery("named")
        named: String
    }
}

@http(method: "GET", uri: "/lists")
operation Lists {
    input := {
        @required
        @httpQueryParams
        others: Many
    }
}

@http(method: "POST", uri: "/fields")
operation Fields {
    input: Held
    output: Held
    errors: [Full, Told, Raw, Empty]
}

structure Held {
    @httpHeader("X-Text")
    text: Short

    @httpHeader("X-Number")
    number: Small

    @httpHeader("x-flag")
    flag: Boolean

    @httpHeader("x-when")
    when: Timestamp

    @httpHeader("x-date")
    @timestampFormat("date-time")
    date: Timestamp

    @httpHeader("x-epoch")
    epoch: Epoch

    @httpHeader("x-color")
    color: Color

    @httpPrefixHeaders("X-P-")
    prefixed: Strings

    @httpHeader("x-texts")
    texts: Texts

    @httpHeader("x-numbers")
    numbers: Numbers

    @httpHeader("x-dates")
    dates: Dates

    @httpHeader("x-epochs")
    epochs: Epochs

    @httpHeader("x-colors")
    colors: Colors

    @httpHeader("x-flags")
    flags: Flags

    @jsonName("Said")
    note: String

    sent: Timestamp
}

@http(method: "POST", uri: "/every")
operation Every {
    input: Whichever
    output: Whichever
}

structure Whichever {
    @httpPrefixHeaders("")
    all: Strings
}

@http(method: "POST", uri: "/octets")
operation Octets {
    input: Image
    output: Image
}

structure Image {
    @httpPayload
    data: Png

    @httpHeader("x-name")
    name: String
}

@mediaType("image/png")
@length(max: 4)
blob Png

@http(method: "POST", uri: "/note")
operation Note {
    input: Written
    output: Written
}

structure Written {
    @required
    @httpPayload
    text: Lower
}

@http(method: "POST", uri: "/paint")
operation Paint {
    input: Painted
    output: Painted
}

structure Painted {
    @httpPayload
    color: Color
}

@http(method: "POST", uri: "/plain")
operation Plain {
    input: Untyped
    output: Untyped
}

structure Untyped {
    @httpPayload
    @mediaType("")
    data: Png
}

@http(method: "PUT", uri: "/doc/{id}")
operation Doc {
    input := {
        @required
        @httpPayload
        doc: Tree

        @required
        @httpLabel
        id: Short
    }
    output := {
        @httpPayload
        doc: Tree
    }
}

@http(method: "POST", uri: "/choose")
operation Choose {
    input: Chosen
    output: Chosen
}

structure Chosen {
    @httpPayload
    pick: Pick
}

@http(method: "POST", uri: "/coded", code: 201)
operation Coded {
    output := {
        @httpResponseCode
        code: Integer

        note: String
    }
}

@http(method: "POST", uri: "/silent", code: 202)
operation Silent {
    output := {
        @httpResponseCode
        code: Integer

        @httpHeader("x-a")
        a: String
    }
}

@http(method: "PATCH", uri: "/mixed/{id}?v=2")
operation Mixed {
    input := {
        c: Tree

        @required
        @httpLabel
        id: Short

        @required
        @jsonName("Bee")
        b: Integer

        @httpQuery("q")
        q: String

        @httpHeader("x-h")
        h: String

        @jsonName("ident")
        other: String = "dflt"

        @httpResponseCode
        code: Integer

        blob: Blob

        at: Timestamp
    }
    output := {
        @httpLabel
        @required
        label: String

        @httpQuery("q")
        q: String = "x"

        @httpHeader("x-h")
        h: String
    }
}

operation Unhttp {}

@http(method: "OPTIONS", uri: "/odd")
operation Odd {}

@http(method: "POST", uri: "/media")
operation Media {
    input := {
        @httpHeader("x-m")
        m: Json
    }
}

@mediaType("application/json")
string Json

@http(method: "POST", uri: "/kept")
operation Kept {
    output := {
        @httpHeader("Content-Type")
        kind: String
    }
}

@http(method: "POST", uri: "/items")
operation Items {
    input := {
        @httpPayload
        items: Texts
    }
}

@http(method: "POST", uri: "/failing")
operation Failing {
    errors: [Numbered]
}

@error("client")
structure Numbered {
    @httpResponseCode
    c: Integer
}

@http(method: "POST", uri: "/ping")
operation Ping {}

@http(method: "POST", uri: "/bare")
operation Bare {
    input := {}
    output := {}
}

@error("client")
@httpError(409)
structure Full {
    message: String
}

@error("client")
@httpError(425)
structure Told {
    @required
    @httpHeader("x-why")
    why: String

    @httpPrefixHeaders("x-t-")
    more: Strings

    message: String
}

@error("server")
structure Raw {
    @httpPayload
    text: String
}

@error("client")
structure Empty {}

@error("server")
@httpError(503)
structure Busy {
    code: String
}

@length(min: 1, max: 12)
string Short

@range(min: -1000)
short Small

enum Color {
    RED = "red"
    BLUE = "dark blue"
}

intEnum Level {
    LOW = 1
    HIGH = 7
}

@pattern("^[a-z ]*$")
string Lower

@timestampFormat("epoch-seconds")
timestamp Epoch

@length(max: 3)
list Texts {
    member: String
}

@uniqueItems
list Numbers {
    member: Integer
}

list Dates {
    member: Timestamp
}

list Epochs {
    member: Epoch
}

list Colors {
    member: Color
}

list Flags {
    member: Boolean
}

map Strings {
    key: String
    value: String
}

map Many {
    key: Short
    value: Texts
}

union Pick {
    text: String

    @jsonName("number")
    count: Integer
}

structure Tree {
    @required
    name: String

    kids: Trees
}

list Trees {
    member: Tree
}
