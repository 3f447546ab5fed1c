$version: "2.0"

namespace shelf

service Shelf {
    version: "1"
    operations: [PutItem]
}

@idempotent
@http(method: "PUT", uri: "/items/{id}")
operation PutItem {
    input := {
        @required
        @httpLabel
        id: String
        note: String
    }
    output := {
        @required
        count: Integer
    }
    errors: [Full]
}

@error("client")
@httpError(409)
structure Full { message: String }
