$version: "2.0"

namespace shop

/// A small shop.
service Shop {
    version: "1"
    operations: [PutItem]
}

operation PutItem {
    input := {
        @required
        id: ItemId
        note: Note
    }
    output := {
        @required
        count: Integer
    }
}

@length(min: 1, max: 8)
string ItemId

@pattern("^[a-z ]*$")
string Note
