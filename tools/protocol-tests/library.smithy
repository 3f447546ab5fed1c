$version: "2.0"

// One service in all four protocols: the same values as messages of each, side by side. The comment over a body of CBOR says it in the
// diagnostic notation of RFC 8949, section 8; such a body is base64 text.
namespace protocoltests.library

use aws.protocols#awsJson1_0
use aws.protocols#awsJson1_1
use aws.protocols#restJson1
use smithy.protocols#rpcv2Cbor
use smithy.test#httpRequestTests
use smithy.test#httpResponseTests

@awsJson1_0
@awsJson1_1
@restJson1
@rpcv2Cbor
service Library {
    version: "1"
    operations: [
        GetBook
        Ping
        PutBook
    ]
}

// No members

@http(method: "POST", uri: "/ping", code: 204)
operation Ping {}

apply Ping @httpRequestTests([
    {
        id: "LibraryPingAwsJson10"
        documentation: "No input is an empty object."
        tags: ["own"]
        protocol: awsJson1_0
        method: "POST"
        uri: "/"
        headers: { "Content-Type": "application/x-amz-json-1.0", "X-Amz-Target": "Library.Ping", "Content-Length": "2" }
        body: "{}"
        bodyMediaType: "application/x-amz-json-1.0"
        params: {}
    }
    {
        id: "LibraryPingAwsJson11"
        documentation: "No input is an empty object."
        tags: ["own"]
        protocol: awsJson1_1
        method: "POST"
        uri: "/"
        headers: { "Content-Type": "application/x-amz-json-1.1", "X-Amz-Target": "Library.Ping", "Content-Length": "2" }
        body: "{}"
        bodyMediaType: "application/x-amz-json-1.1"
        params: {}
    }
    {
        id: "LibraryPingRestJson1"
        documentation: "No input is an empty body."
        tags: ["own"]
        protocol: restJson1
        method: "POST"
        uri: "/ping"
        headers: { "Content-Length": "0" }
        forbidHeaders: ["Content-Type", "X-Amz-Target"]
        body: ""
        params: {}
    }
    {
        id: "LibraryPingRpcV2Cbor"
        documentation: "No input is an empty body."
        tags: ["own"]
        protocol: rpcv2Cbor
        method: "POST"
        uri: "/service/Library/operation/Ping"
        headers: { "smithy-protocol": "rpc-v2-cbor", "Accept": "application/cbor", "Content-Length": "0" }
        forbidHeaders: ["Content-Type"]
        body: ""
        params: {}
    }
])

apply Ping @httpResponseTests([
    {
        id: "LibraryPingAwsJson10"
        documentation: "The status that HTTP bindings give an operation says nothing here."
        tags: ["own"]
        protocol: awsJson1_0
        code: 200
        headers: { "Content-Type": "application/x-amz-json-1.0" }
        body: "{}"
        bodyMediaType: "application/x-amz-json-1.0"
        params: {}
    }
    {
        id: "LibraryPingAwsJson11"
        documentation: "The status that HTTP bindings give an operation says nothing here."
        tags: ["own"]
        protocol: awsJson1_1
        code: 200
        headers: { "Content-Type": "application/x-amz-json-1.1" }
        body: "{}"
        bodyMediaType: "application/x-amz-json-1.1"
        params: {}
    }
    {
        id: "LibraryPingRestJson1"
        documentation: "The operation's status, without a body and its length."
        tags: ["own"]
        protocol: restJson1
        code: 204
        forbidHeaders: ["Content-Type", "Content-Length"]
        body: ""
        params: {}
    }
    {
        id: "LibraryPingRpcV2Cbor"
        documentation: "The status that HTTP bindings give an operation says nothing here."
        tags: ["own"]
        protocol: rpcv2Cbor
        code: 200
        headers: { "smithy-protocol": "rpc-v2-cbor", "Content-Length": "0" }
        forbidHeaders: ["Content-Type"]
        body: ""
        params: {}
    }
])

// Every binding of an input

@idempotent
@http(method: "PUT", uri: "/books/{isbn}?mode=put", code: 201)
operation PutBook {
    input := {
        @required
        @httpLabel
        isbn: Isbn

        @httpHeader("X-Authors")
        authors: Texts

        @httpQuery("published")
        published: Timestamp

        @required
        @jsonName("name")
        title: String

        @timestampFormat("date-time")
        lent: Timestamp

        cover: Cover
    }

    output := {
        @required
        @httpHeader("ETag")
        tag: String

        @jsonName("no")
        number: Long
    }

    errors: [BookLent]
}

@length(min: 1, max: 17)
@pattern("^[0-9X /-]+$")
string Isbn

list Texts {
    member: String
}

union Cover {
    picture: Blob
    color: Color
    none: Unit
}

enum Color {
    RED = "red"
    GREEN = "green"
}

apply PutBook @httpRequestTests([
    {
        id: "LibraryPutBookAwsJson10"
        documentation: "All members stand in the body, under their own names."
        tags: ["own"]
        protocol: awsJson1_0
        method: "POST"
        uri: "/"
        headers: { "Content-Type": "application/x-amz-json-1.0", "X-Amz-Target": "Library.PutBook" }
        forbidHeaders: ["X-Authors"]
        body: """
            {
                "isbn": "3-16 14/X",
                "authors": ["Ada, L.", "B"],
                "published": 1576540098,
                "title": "One",
                "lent": "2019-12-16T23:48:18Z",
                "cover": { "picture": "QA==" }
            }"""
        bodyMediaType: "application/json"
        params: {
            isbn: "3-16 14/X"
            authors: ["Ada, L.", "B"]
            published: 1576540098
            title: "One"
            lent: 1576540098
            cover: { picture: "@" }
        }
    }
    {
        id: "LibraryPutBookAwsJson11"
        documentation: "All members stand in the body, under their own names."
        tags: ["own"]
        protocol: awsJson1_1
        method: "POST"
        uri: "/"
        headers: { "Content-Type": "application/x-amz-json-1.1", "X-Amz-Target": "Library.PutBook" }
        forbidHeaders: ["X-Authors"]
        body: """
            {
                "isbn": "3-16 14/X",
                "authors": ["Ada, L.", "B"],
                "published": 1576540098,
                "title": "One",
                "lent": "2019-12-16T23:48:18Z",
                "cover": { "picture": "QA==" }
            }"""
        bodyMediaType: "application/json"
        params: {
            isbn: "3-16 14/X"
            authors: ["Ada, L.", "B"]
            published: 1576540098
            title: "One"
            lent: 1576540098
            cover: { picture: "@" }
        }
    }
    {
        id: "LibraryPutBookRestJson1"
        documentation: "A label, a pair of the query, a field, and a document with JSON names."
        tags: ["own"]
        protocol: restJson1
        method: "PUT"
        uri: "/books/3-16%2014%2FX"
        queryParams: ["mode=put", "published=2019-12-16T23%3A48%3A18Z"]
        headers: { "Content-Type": "application/json", "X-Authors": "\"Ada, L.\", B" }
        body: """
            {
                "name": "One",
                "lent": "2019-12-16T23:48:18Z",
                "cover": { "picture": "QA==" }
            }"""
        bodyMediaType: "application/json"
        params: {
            isbn: "3-16 14/X"
            authors: ["Ada, L.", "B"]
            published: 1576540098
            title: "One"
            lent: 1576540098
            cover: { picture: "@" }
        }
    }
    {
        id: "LibraryPutBookRpcV2Cbor"
        documentation: "All members stand in the body, under their own names; a timestamp's format says nothing."
        tags: ["own"]
        protocol: rpcv2Cbor
        method: "POST"
        uri: "/service/Library/operation/PutBook"
        headers: { "smithy-protocol": "rpc-v2-cbor", "Accept": "application/cbor", "Content-Type": "application/cbor" }
        forbidHeaders: ["X-Authors"]
        // {"isbn": "3-16 14/X", "authors": ["Ada, L.", "B"], "published": 1(1576540098), "title": "One", "lent": 1(1576540098),
        // "cover": {"picture": h'40'}}
        body: """
            pmRpc2JuaTMtMTYgMTQvWGdhdXRob3JzgmdBZGEsIEwuYUJpcHVibGlzaGVkwRpd+BfCZXRpdGxlY09uZWRsZW50wRpd+BfCZWNv\
            dmVyoWdwaWN0dXJlQUA="""
        bodyMediaType: "application/cbor"
        params: {
            isbn: "3-16 14/X"
            authors: ["Ada, L.", "B"]
            published: 1576540098
            title: "One"
            lent: 1576540098
            cover: { picture: "@" }
        }
    }
])

apply PutBook @httpResponseTests([
    {
        id: "LibraryPutBookAwsJson10"
        documentation: "All members stand in the body."
        tags: ["own"]
        protocol: awsJson1_0
        code: 200
        headers: { "Content-Type": "application/x-amz-json-1.0" }
        forbidHeaders: ["ETag"]
        body: """
            { "tag": "v1", "number": 9007199254740993 }"""
        bodyMediaType: "application/json"
        params: { tag: "v1", number: 9007199254740993 }
    }
    {
        id: "LibraryPutBookAwsJson11"
        documentation: "All members stand in the body."
        tags: ["own"]
        protocol: awsJson1_1
        code: 200
        headers: { "Content-Type": "application/x-amz-json-1.1" }
        forbidHeaders: ["ETag"]
        body: """
            { "tag": "v1", "number": 9007199254740993 }"""
        bodyMediaType: "application/json"
        params: { tag: "v1", number: 9007199254740993 }
    }
    {
        id: "LibraryPutBookRestJson1"
        documentation: "A field, a document with a JSON name, and the operation's status."
        tags: ["own"]
        protocol: restJson1
        code: 201
        headers: { "Content-Type": "application/json", "ETag": "v1" }
        body: """
            { "no": 9007199254740993 }"""
        bodyMediaType: "application/json"
        params: { tag: "v1", number: 9007199254740993 }
    }
    {
        id: "LibraryPutBookRpcV2Cbor"
        documentation: "All members stand in the body."
        tags: ["own"]
        protocol: rpcv2Cbor
        code: 200
        headers: { "smithy-protocol": "rpc-v2-cbor", "Content-Type": "application/cbor" }
        forbidHeaders: ["ETag"]
        // {"tag": "v1", "number": 9007199254740993}
        body: "omN0YWdidjFmbnVtYmVyGwAgAAAAAAAB"
        bodyMediaType: "application/cbor"
        params: { tag: "v1", number: 9007199254740993 }
    }
])

/// Somebody has the book.
@error("client")
@httpError(409)
structure BookLent {
    @httpHeader("Retry-After")
    days: Integer

    @required
    message: String
}

apply BookLent @httpResponseTests([
    {
        id: "LibraryBookLentAwsJson10"
        documentation: "An error is named by its whole id in the body; the status is 400 whatever httpError says."
        tags: ["own"]
        protocol: awsJson1_0
        code: 400
        headers: { "Content-Type": "application/x-amz-json-1.0" }
        forbidHeaders: ["Retry-After", "X-Amzn-Errortype"]
        body: """
            { "__type": "protocoltests.library#BookLent", "days": 3, "message": "lent" }"""
        bodyMediaType: "application/json"
        params: { days: 3, message: "lent" }
    }
    {
        id: "LibraryBookLentAwsJson11"
        documentation: "An error is named by its name in the body; the status is 400 whatever httpError says."
        tags: ["own"]
        protocol: awsJson1_1
        code: 400
        headers: { "Content-Type": "application/x-amz-json-1.1" }
        forbidHeaders: ["Retry-After", "X-Amzn-Errortype"]
        body: """
            { "__type": "BookLent", "days": 3, "message": "lent" }"""
        bodyMediaType: "application/json"
        params: { days: 3, message: "lent" }
    }
    {
        id: "LibraryBookLentRestJson1"
        documentation: "An error is named by a field, and has the status of httpError."
        tags: ["own"]
        protocol: restJson1
        code: 409
        headers: { "Content-Type": "application/json", "X-Amzn-Errortype": "BookLent", "Retry-After": "3" }
        body: """
            { "message": "lent" }"""
        bodyMediaType: "application/json"
        params: { days: 3, message: "lent" }
    }
    {
        id: "LibraryBookLentRpcV2Cbor"
        documentation: "An error is named by its whole id in the body; the status is 400 whatever httpError says."
        tags: ["own"]
        protocol: rpcv2Cbor
        code: 400
        headers: { "smithy-protocol": "rpc-v2-cbor", "Content-Type": "application/cbor" }
        forbidHeaders: ["Retry-After", "X-Amzn-Errortype"]
        // {"__type": "protocoltests.library#BookLent", "days": 3, "message": "lent"}
        body: "o2ZfX3R5cGV4HnByb3RvY29sdGVzdHMubGlicmFyeSNCb29rTGVudGRkYXlzA2dtZXNzYWdlZGxlbnQ="
        bodyMediaType: "application/cbor"
        params: { days: 3, message: "lent" }
    }
])

// A payload

@readonly
@http(method: "GET", uri: "/books/{isbn}")
operation GetBook {
    input := {
        @required
        @httpLabel
        isbn: Isbn
    }

    output := {
        @httpHeader("Last-Modified")
        changed: Timestamp

        @httpPayload
        book: Book
    }
}

structure Book {
    @required
    title: String

    shelves: Shelves

    pages: Pages

    rank: Integer = 0
}

@sparse
map Shelves {
    key: String
    value: Short
}

@uniqueItems
list Pages {
    member: Integer
}

apply GetBook @httpRequestTests([
    {
        id: "LibraryGetBookAwsJson10"
        documentation: "A label stands in the body."
        tags: ["own"]
        protocol: awsJson1_0
        method: "POST"
        uri: "/"
        headers: { "Content-Type": "application/x-amz-json-1.0", "X-Amz-Target": "Library.GetBook" }
        body: """
            { "isbn": "0" }"""
        bodyMediaType: "application/json"
        params: { isbn: "0" }
    }
    {
        id: "LibraryGetBookAwsJson11"
        documentation: "A label stands in the body."
        tags: ["own"]
        protocol: awsJson1_1
        method: "POST"
        uri: "/"
        headers: { "Content-Type": "application/x-amz-json-1.1", "X-Amz-Target": "Library.GetBook" }
        body: """
            { "isbn": "0" }"""
        bodyMediaType: "application/json"
        params: { isbn: "0" }
    }
    {
        id: "LibraryGetBookRestJson1"
        documentation: "A label stands in the path; nothing stands in the body."
        tags: ["own"]
        protocol: restJson1
        method: "GET"
        uri: "/books/0"
        forbidHeaders: ["Content-Type"]
        body: ""
        params: { isbn: "0" }
    }
    {
        id: "LibraryGetBookRpcV2Cbor"
        documentation: "A label stands in the body."
        tags: ["own"]
        protocol: rpcv2Cbor
        method: "POST"
        uri: "/service/Library/operation/GetBook"
        headers: { "smithy-protocol": "rpc-v2-cbor", "Accept": "application/cbor", "Content-Type": "application/cbor" }
        // {"isbn": "0"}
        body: "oWRpc2JuYTA="
        bodyMediaType: "application/cbor"
        params: { isbn: "0" }
    }
])

apply GetBook @httpResponseTests([
    {
        id: "LibraryGetBookAwsJson10"
        documentation: "A payload is a member as any other; a default is written; keys stand in the order of their bytes."
        tags: ["own"]
        protocol: awsJson1_0
        code: 200
        headers: { "Content-Type": "application/x-amz-json-1.0" }
        body: """
            {
                "changed": 784111777,
                "book": { "title": "One", "shelves": { "B": null, "a": -1 }, "pages": [3, 1, 2], "rank": 0 }
            }"""
        bodyMediaType: "application/json"
        params: {
            changed: 784111777
            book: {
                title: "One"
                shelves: { a: -1, B: null }
                pages: [3, 1, 2]
            }
        }
    }
    {
        id: "LibraryGetBookAwsJson11"
        documentation: "A payload is a member as any other; a default is written; keys stand in the order of their bytes."
        tags: ["own"]
        protocol: awsJson1_1
        code: 200
        headers: { "Content-Type": "application/x-amz-json-1.1" }
        body: """
            {
                "changed": 784111777,
                "book": { "title": "One", "shelves": { "B": null, "a": -1 }, "pages": [3, 1, 2], "rank": 0 }
            }"""
        bodyMediaType: "application/json"
        params: {
            changed: 784111777
            book: {
                title: "One"
                shelves: { a: -1, B: null }
                pages: [3, 1, 2]
            }
        }
    }
    {
        id: "LibraryGetBookRestJson1"
        documentation: "A payload is the body; the timestamp is a field."
        tags: ["own"]
        protocol: restJson1
        code: 200
        headers: { "Content-Type": "application/json", "Last-Modified": "Sun, 06 Nov 1994 08:49:37 GMT" }
        body: """
            { "title": "One", "shelves": { "B": null, "a": -1 }, "pages": [3, 1, 2], "rank": 0 }"""
        bodyMediaType: "application/json"
        params: {
            changed: 784111777
            book: {
                title: "One"
                shelves: { a: -1, B: null }
                pages: [3, 1, 2]
            }
        }
    }
    {
        id: "LibraryGetBookRpcV2Cbor"
        documentation: "A payload is a member as any other; a default is written."
        tags: ["own"]
        protocol: rpcv2Cbor
        code: 200
        headers: { "smithy-protocol": "rpc-v2-cbor", "Content-Type": "application/cbor" }
        // {"changed": 1(784111777), "book": {"title": "One", "shelves": {"B": null, "a": -1}, "pages": [3, 1, 2], "rank": 0}}
        body: "omdjaGFuZ2VkwRouvJihZGJvb2ukZXRpdGxlY09uZWdzaGVsdmVzomFC9mFhIGVwYWdlc4MDAQJkcmFuawA="
        bodyMediaType: "application/cbor"
        params: {
            changed: 784111777
            book: {
                title: "One"
                shelves: { a: -1, B: null }
                pages: [3, 1, 2]
            }
        }
    }
])
