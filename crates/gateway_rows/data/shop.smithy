$version: "2.0"

namespace shop

use aws.protocols#restJson1

/// A small shop.
@restJson1
service Shop {
    version: "1"
    operations: [PutItem, GetPart, Price]
}

@idempotent
@http(method: "PUT", uri: "/items/{id}", code: 200)
operation PutItem {
    input := {
        @required
        @httpLabel
        id: ItemId

        @httpQuery("tag")
        tags: Tags

        @httpHeader("x-when")
        when: Timestamp

        @httpHeader("x-dates")
        dates: Dates

        @httpQuery("at")
        at: Timestamp

        note: Note

        parent: Part
    }
    output := {
        @required
        count: Integer
    }
    errors: [Full]
}

@readonly
@http(method: "GET", uri: "/parts/{path+}?view=full")
operation GetPart {
    input := {
        @required
        @httpLabel
        path: String
    }
    output := {
        part: Part
        size: Long
    }
}

@http(method: "POST", uri: "/price")
operation Price {
    input := { unit: String }
    output := { price: Double }
}

@length(min: 1, max: 8)
string ItemId

@pattern("^[a-z ]*$")
string Note

list Tags { member: String }
list Dates { member: Timestamp }
list Parts { member: Part }

structure Part {
    @required
    name: String
    kids: Parts
}

@error("client")
@httpError(409)
structure Full { message: String }
