$version: "2.0"

// AWS restJson1 (Smithy 2.0, "AWS restJson1 protocol", "jsonName trait", "timestampFormat trait"): members in a JSON document.
namespace aws.protocoltests.restjson.documents

use aws.protocols#restJson1
use smithy.test#httpRequestTests
use smithy.test#httpResponseTests

@restJson1
service RestJson {
    version: "2019-12-16"
    operations: [
        EveryPartOfARequest
        FractionalSeconds
        JsonBlobs
        JsonEnums
        JsonIntEnums
        JsonTimestamps
        RecursiveShapes
        SimpleScalarProperties
    ]
}

@idempotent
@http(method: "PUT", uri: "/SimpleScalarProperties")
operation SimpleScalarProperties {
    input: SimpleScalarPropertiesInputOutput
    output: SimpleScalarPropertiesInputOutput
}

structure SimpleScalarPropertiesInputOutput {
    @httpHeader("X-Foo")
    foo: String

    stringValue: String

    trueBooleanValue: Boolean

    falseBooleanValue: Boolean

    byteValue: Byte

    shortValue: Short

    integerValue: Integer

    longValue: Long

    @jsonName("DoubleDribble")
    renamedValue: Long
}

apply SimpleScalarProperties @httpRequestTests([
    {
        id: "RestJsonSimpleScalarPropertiesWithoutFloats"
        documentation: "Simple values stand in the document, under their JSON names."
        tags: ["changed"]
        protocol: restJson1
        method: "PUT"
        uri: "/SimpleScalarProperties"
        headers: { "Content-Type": "application/json", "X-Foo": "Foo" }
        requireHeaders: ["Content-Length"]
        body: """
            {
                "stringValue": "string",
                "trueBooleanValue": true,
                "falseBooleanValue": false,
                "byteValue": 1,
                "shortValue": 2,
                "integerValue": 3,
                "longValue": 4,
                "DoubleDribble": 6
            }"""
        bodyMediaType: "application/json"
        params: {
            foo: "Foo"
            stringValue: "string"
            trueBooleanValue: true
            falseBooleanValue: false
            byteValue: 1
            shortValue: 2
            integerValue: 3
            longValue: 4
            renamedValue: 6
        }
    }
    {
        id: "RestJsonDoesntSerializeNullStructureValues"
        documentation: "A member that is null is absent, and isn't written."
        protocol: restJson1
        method: "PUT"
        uri: "/SimpleScalarProperties"
        headers: { "Content-Type": "application/json" }
        forbidHeaders: ["X-Foo"]
        body: "{}"
        bodyMediaType: "application/json"
        params: { stringValue: null }
    }
    {
        id: "RestJsonGreatestWholeNumbers"
        documentation: "The greatest numbers of each width."
        tags: ["own"]
        protocol: restJson1
        method: "PUT"
        uri: "/SimpleScalarProperties"
        headers: { "Content-Type": "application/json" }
        body: """
            {
                "byteValue": 127,
                "shortValue": 32767,
                "integerValue": 2147483647,
                "longValue": 9223372036854775807,
                "DoubleDribble": -9223372036854775808
            }"""
        bodyMediaType: "application/json"
        params: {
            byteValue: 127
            shortValue: 32767
            integerValue: 2147483647
            longValue: 9223372036854775807
            renamedValue: -9223372036854775808
        }
    }
])

apply SimpleScalarProperties @httpResponseTests([
    {
        id: "RestJsonSimpleScalarPropertiesWithoutFloats"
        documentation: "Simple values stand in the document, under their JSON names."
        tags: ["changed"]
        protocol: restJson1
        code: 200
        headers: { "Content-Type": "application/json", "X-Foo": "Foo" }
        body: """
            {
                "stringValue": "string",
                "trueBooleanValue": true,
                "falseBooleanValue": false,
                "byteValue": 1,
                "shortValue": 2,
                "integerValue": 3,
                "longValue": 4,
                "DoubleDribble": 6
            }"""
        bodyMediaType: "application/json"
        params: {
            foo: "Foo"
            stringValue: "string"
            trueBooleanValue: true
            falseBooleanValue: false
            byteValue: 1
            shortValue: 2
            integerValue: 3
            longValue: 4
            renamedValue: 6
        }
    }
    {
        id: "RestJsonDoesntSerializeNullStructureValuesInResponses"
        documentation: "A member that is null is absent, and isn't written."
        tags: ["own"]
        protocol: restJson1
        code: 200
        headers: { "Content-Type": "application/json" }
        body: "{}"
        bodyMediaType: "application/json"
        params: { stringValue: null }
    }
])

// Timestamps

@http(method: "POST", uri: "/JsonTimestamps")
operation JsonTimestamps {
    input: JsonTimestampsInputOutput
    output: JsonTimestampsInputOutput
}

structure JsonTimestampsInputOutput {
    normal: Timestamp

    @timestampFormat("date-time")
    dateTime: Timestamp

    dateTimeOnTarget: DateTime

    @timestampFormat("epoch-seconds")
    epochSeconds: Timestamp

    epochSecondsOnTarget: EpochSeconds

    @timestampFormat("http-date")
    httpDate: Timestamp

    httpDateOnTarget: HttpDate
}

@timestampFormat("date-time")
timestamp DateTime

@timestampFormat("epoch-seconds")
timestamp EpochSeconds

@timestampFormat("http-date")
timestamp HttpDate

apply JsonTimestamps @httpRequestTests([
    {
        id: "RestJsonJsonTimestamps"
        documentation: "A timestamp without a format is a number of seconds."
        protocol: restJson1
        method: "POST"
        uri: "/JsonTimestamps"
        headers: { "Content-Type": "application/json" }
        requireHeaders: ["Content-Length"]
        body: """
            { "normal": 1398796238 }"""
        bodyMediaType: "application/json"
        params: { normal: 1398796238 }
    }
    {
        id: "RestJsonJsonTimestampsWithDateTimeFormat"
        documentation: "A date-time is text."
        protocol: restJson1
        method: "POST"
        uri: "/JsonTimestamps"
        headers: { "Content-Type": "application/json" }
        body: """
            { "dateTime": "2014-04-29T18:30:38Z" }"""
        bodyMediaType: "application/json"
        params: { dateTime: 1398796238 }
    }
    {
        id: "RestJsonJsonTimestampsWithDateTimeOnTargetFormat"
        documentation: "The format of a member's target counts where the member has none."
        protocol: restJson1
        method: "POST"
        uri: "/JsonTimestamps"
        headers: { "Content-Type": "application/json" }
        body: """
            { "dateTimeOnTarget": "2014-04-29T18:30:38Z" }"""
        bodyMediaType: "application/json"
        params: { dateTimeOnTarget: 1398796238 }
    }
    {
        id: "RestJsonJsonTimestampsWithEpochSecondsFormat"
        documentation: "Epoch-seconds are a number."
        protocol: restJson1
        method: "POST"
        uri: "/JsonTimestamps"
        headers: { "Content-Type": "application/json" }
        body: """
            { "epochSeconds": 1398796238 }"""
        bodyMediaType: "application/json"
        params: { epochSeconds: 1398796238 }
    }
    {
        id: "RestJsonJsonTimestampsWithEpochSecondsOnTargetFormat"
        documentation: "The format of a member's target counts where the member has none."
        protocol: restJson1
        method: "POST"
        uri: "/JsonTimestamps"
        headers: { "Content-Type": "application/json" }
        body: """
            { "epochSecondsOnTarget": 1398796238 }"""
        bodyMediaType: "application/json"
        params: { epochSecondsOnTarget: 1398796238 }
    }
    {
        id: "RestJsonJsonTimestampsWithHttpDateFormat"
        documentation: "An http-date is text."
        protocol: restJson1
        method: "POST"
        uri: "/JsonTimestamps"
        headers: { "Content-Type": "application/json" }
        body: """
            { "httpDate": "Tue, 29 Apr 2014 18:30:38 GMT" }"""
        bodyMediaType: "application/json"
        params: { httpDate: 1398796238 }
    }
    {
        id: "RestJsonJsonTimestampsWithHttpDateOnTargetFormat"
        documentation: "The format of a member's target counts where the member has none."
        protocol: restJson1
        method: "POST"
        uri: "/JsonTimestamps"
        headers: { "Content-Type": "application/json" }
        body: """
            { "httpDateOnTarget": "Tue, 29 Apr 2014 18:30:38 GMT" }"""
        bodyMediaType: "application/json"
        params: { httpDateOnTarget: 1398796238 }
    }
])

apply JsonTimestamps @httpResponseTests([
    {
        id: "RestJsonJsonTimestamps"
        documentation: "A timestamp without a format is a number of seconds."
        protocol: restJson1
        code: 200
        headers: { "Content-Type": "application/json" }
        body: """
            { "normal": 1398796238 }"""
        bodyMediaType: "application/json"
        params: { normal: 1398796238 }
    }
    {
        id: "RestJsonJsonTimestampsWithDateTimeFormat"
        documentation: "A date-time is text."
        protocol: restJson1
        code: 200
        headers: { "Content-Type": "application/json" }
        body: """
            { "dateTime": "2014-04-29T18:30:38Z" }"""
        bodyMediaType: "application/json"
        params: { dateTime: 1398796238 }
    }
    {
        id: "RestJsonJsonTimestampsWithDateTimeOnTargetFormat"
        documentation: "The format of a member's target counts where the member has none."
        protocol: restJson1
        code: 200
        headers: { "Content-Type": "application/json" }
        body: """
            { "dateTimeOnTarget": "2014-04-29T18:30:38Z" }"""
        bodyMediaType: "application/json"
        params: { dateTimeOnTarget: 1398796238 }
    }
    {
        id: "RestJsonJsonTimestampsWithEpochSecondsFormat"
        documentation: "Epoch-seconds are a number."
        protocol: restJson1
        code: 200
        headers: { "Content-Type": "application/json" }
        body: """
            { "epochSeconds": 1398796238 }"""
        bodyMediaType: "application/json"
        params: { epochSeconds: 1398796238 }
    }
    {
        id: "RestJsonJsonTimestampsWithEpochSecondsOnTargetFormat"
        documentation: "The format of a member's target counts where the member has none."
        protocol: restJson1
        code: 200
        headers: { "Content-Type": "application/json" }
        body: """
            { "epochSecondsOnTarget": 1398796238 }"""
        bodyMediaType: "application/json"
        params: { epochSecondsOnTarget: 1398796238 }
    }
    {
        id: "RestJsonJsonTimestampsWithHttpDateFormat"
        documentation: "An http-date is text."
        protocol: restJson1
        code: 200
        headers: { "Content-Type": "application/json" }
        body: """
            { "httpDate": "Tue, 29 Apr 2014 18:30:38 GMT" }"""
        bodyMediaType: "application/json"
        params: { httpDate: 1398796238 }
    }
    {
        id: "RestJsonJsonTimestampsWithHttpDateOnTargetFormat"
        documentation: "The format of a member's target counts where the member has none."
        protocol: restJson1
        code: 200
        headers: { "Content-Type": "application/json" }
        body: """
            { "httpDateOnTarget": "Tue, 29 Apr 2014 18:30:38 GMT" }"""
        bodyMediaType: "application/json"
        params: { httpDateOnTarget: 1398796238 }
    }
])

@http(method: "POST", uri: "/FractionalSeconds")
operation FractionalSeconds {
    output := {
        datetime: DateTime
    }
}

apply FractionalSeconds @httpResponseTests([
    {
        id: "RestJsonDateTimeWithFractionalSeconds"
        documentation: "A moment between two seconds has three digits of a fraction."
        protocol: restJson1
        code: 200
        headers: { "Content-Type": "application/json" }
        body: """
            { "datetime": "2000-01-02T20:34:56.123Z" }"""
        bodyMediaType: "application/json"
        params: { datetime: 946845296.123 }
    }
])

// Enums

@idempotent
@http(method: "PUT", uri: "/JsonEnums")
operation JsonEnums {
    input: JsonEnumsInputOutput
    output: JsonEnumsInputOutput
}

structure JsonEnumsInputOutput {
    fooEnum1: FooEnum
    fooEnum2: FooEnum
    fooEnum3: FooEnum
    fooEnumList: FooEnumList
    fooEnumSet: FooEnumSet
    fooEnumMap: FooEnumMap
}

enum FooEnum {
    FOO = "Foo"
    BAZ = "Baz"
    BAR = "Bar"
    ONE = "1"
    ZERO = "0"
}

list FooEnumList {
    member: FooEnum
}

@uniqueItems
list FooEnumSet {
    member: FooEnum
}

map FooEnumMap {
    key: String
    value: FooEnum
}

apply JsonEnums @httpRequestTests([
    {
        id: "RestJsonJsonEnums"
        documentation: "Enums are their values."
        protocol: restJson1
        method: "PUT"
        uri: "/JsonEnums"
        headers: { "Content-Type": "application/json" }
        body: """
            {
                "fooEnum1": "Foo",
                "fooEnum2": "0",
                "fooEnum3": "1",
                "fooEnumList": ["Foo", "0"],
                "fooEnumSet": ["Foo", "0"],
                "fooEnumMap": { "hi": "Foo", "zero": "0" }
            }"""
        bodyMediaType: "application/json"
        params: {
            fooEnum1: "Foo"
            fooEnum2: "0"
            fooEnum3: "1"
            fooEnumList: ["Foo", "0"]
            fooEnumSet: ["Foo", "0"]
            fooEnumMap: { hi: "Foo", zero: "0" }
        }
    }
])

apply JsonEnums @httpResponseTests([
    {
        id: "RestJsonJsonEnums"
        documentation: "Enums are their values."
        protocol: restJson1
        code: 200
        headers: { "Content-Type": "application/json" }
        body: """
            {
                "fooEnum1": "Foo",
                "fooEnum2": "0",
                "fooEnum3": "1",
                "fooEnumList": ["Foo", "0"],
                "fooEnumSet": ["Foo", "0"],
                "fooEnumMap": { "hi": "Foo", "zero": "0" }
            }"""
        bodyMediaType: "application/json"
        params: {
            fooEnum1: "Foo"
            fooEnum2: "0"
            fooEnum3: "1"
            fooEnumList: ["Foo", "0"]
            fooEnumSet: ["Foo", "0"]
            fooEnumMap: { hi: "Foo", zero: "0" }
        }
    }
])

@idempotent
@http(method: "PUT", uri: "/JsonIntEnums")
operation JsonIntEnums {
    input: JsonIntEnumsInputOutput
    output: JsonIntEnumsInputOutput
}

structure JsonIntEnumsInputOutput {
    integerEnum1: IntegerEnum
    integerEnum2: IntegerEnum
    integerEnum3: IntegerEnum
    integerEnumList: IntegerEnumList
    integerEnumSet: IntegerEnumSet
    integerEnumMap: IntegerEnumMap
}

intEnum IntegerEnum {
    A = 1
    B = 2
    C = 3
}

list IntegerEnumList {
    member: IntegerEnum
}

@uniqueItems
list IntegerEnumSet {
    member: IntegerEnum
}

map IntegerEnumMap {
    key: String
    value: IntegerEnum
}

apply JsonIntEnums @httpRequestTests([
    {
        id: "RestJsonJsonIntEnums"
        documentation: "IntEnums are numbers."
        protocol: restJson1
        method: "PUT"
        uri: "/JsonIntEnums"
        headers: { "Content-Type": "application/json" }
        body: """
            {
                "integerEnum1": 1,
                "integerEnum2": 2,
                "integerEnum3": 3,
                "integerEnumList": [1, 2, 3],
                "integerEnumSet": [1, 2],
                "integerEnumMap": { "abc": 1, "def": 2 }
            }"""
        bodyMediaType: "application/json"
        params: {
            integerEnum1: 1
            integerEnum2: 2
            integerEnum3: 3
            integerEnumList: [1, 2, 3]
            integerEnumSet: [1, 2]
            integerEnumMap: { abc: 1, def: 2 }
        }
    }
])

apply JsonIntEnums @httpResponseTests([
    {
        id: "RestJsonJsonIntEnums"
        documentation: "IntEnums are numbers."
        protocol: restJson1
        code: 200
        headers: { "Content-Type": "application/json" }
        body: """
            {
                "integerEnum1": 1,
                "integerEnum2": 2,
                "integerEnum3": 3,
                "integerEnumList": [1, 2, 3],
                "integerEnumSet": [1, 2],
                "integerEnumMap": { "abc": 1, "def": 2 }
            }"""
        bodyMediaType: "application/json"
        params: {
            integerEnum1: 1
            integerEnum2: 2
            integerEnum3: 3
            integerEnumList: [1, 2, 3]
            integerEnumSet: [1, 2]
            integerEnumMap: { abc: 1, def: 2 }
        }
    }
])

// Blobs and structures

@http(method: "POST", uri: "/JsonBlobs")
operation JsonBlobs {
    input: JsonBlobsInputOutput
    output: JsonBlobsInputOutput
}

structure JsonBlobsInputOutput {
    data: Blob
}

apply JsonBlobs @httpRequestTests([
    {
        id: "RestJsonJsonBlobs"
        documentation: "A blob is base64 text."
        protocol: restJson1
        method: "POST"
        uri: "/JsonBlobs"
        headers: { "Content-Type": "application/json" }
        requireHeaders: ["Content-Length"]
        body: """
            { "data": "dmFsdWU=" }"""
        bodyMediaType: "application/json"
        params: { data: "value" }
    }
    {
        id: "RestJsonJsonBlobsWithPlusAndSlash"
        documentation: "The last two letters of base64 are + and /."
        tags: ["own"]
        protocol: restJson1
        method: "POST"
        uri: "/JsonBlobs"
        headers: { "Content-Type": "application/json" }
        body: """
            { "data": "8J+YuT4/" }"""
        bodyMediaType: "application/json"
        params: { data: "😹>?" }
    }
])

apply JsonBlobs @httpResponseTests([
    {
        id: "RestJsonJsonBlobs"
        documentation: "A blob is base64 text."
        protocol: restJson1
        code: 200
        headers: { "Content-Type": "application/json" }
        body: """
            { "data": "dmFsdWU=" }"""
        bodyMediaType: "application/json"
        params: { data: "value" }
    }
])

@idempotent
@http(method: "PUT", uri: "/RecursiveShapes")
operation RecursiveShapes {
    input: RecursiveShapesInputOutput
    output: RecursiveShapesInputOutput
}

structure RecursiveShapesInputOutput {
    nested: RecursiveShapesInputOutputNested1
}

structure RecursiveShapesInputOutputNested1 {
    foo: String
    nested: RecursiveShapesInputOutputNested2
}

structure RecursiveShapesInputOutputNested2 {
    bar: String
    recursiveMember: RecursiveShapesInputOutputNested1
}

apply RecursiveShapes @httpRequestTests([
    {
        id: "RestJsonRecursiveShapes"
        documentation: "Two structures that hold each other."
        protocol: restJson1
        method: "PUT"
        uri: "/RecursiveShapes"
        headers: { "Content-Type": "application/json" }
        body: """
            {
                "nested": {
                    "foo": "Foo1",
                    "nested": {
                        "bar": "Bar1",
                        "recursiveMember": {
                            "foo": "Foo2",
                            "nested": { "bar": "Bar2" }
                        }
                    }
                }
            }"""
        bodyMediaType: "application/json"
        params: {
            nested: {
                foo: "Foo1"
                nested: {
                    bar: "Bar1"
                    recursiveMember: {
                        foo: "Foo2"
                        nested: { bar: "Bar2" }
                    }
                }
            }
        }
    }
])

apply RecursiveShapes @httpResponseTests([
    {
        id: "RestJsonRecursiveShapes"
        documentation: "Two structures that hold each other."
        protocol: restJson1
        code: 200
        headers: { "Content-Type": "application/json" }
        body: """
            {
                "nested": {
                    "foo": "Foo1",
                    "nested": {
                        "bar": "Bar1",
                        "recursiveMember": {
                            "foo": "Foo2",
                            "nested": { "bar": "Bar2" }
                        }
                    }
                }
            }"""
        bodyMediaType: "application/json"
        params: {
            nested: {
                foo: "Foo1"
                nested: {
                    bar: "Bar1"
                    recursiveMember: {
                        foo: "Foo2"
                        nested: { bar: "Bar2" }
                    }
                }
            }
        }
    }
])

// Every part of a request at once

@http(method: "PATCH", uri: "/things/{id}/{rest+}?kind=thing")
operation EveryPartOfARequest {
    input := {
        note: String

        @required
        @httpLabel
        id: ThingId

        @required
        @httpLabel
        rest: String

        @httpQuery("tag")
        tags: Tags

        @httpHeader("If-Match")
        match: String

        @jsonName("parts")
        pieces: Pieces
    }

    output := {
        @httpHeader("ETag")
        tag: String

        @required
        count: Integer
    }
}

@length(min: 1, max: 8)
string ThingId

list Tags {
    member: String
}

list Pieces {
    member: Piece
}

structure Piece {
    @required
    name: String

    @httpQuery("weight")
    weight: Integer
}

apply EveryPartOfARequest @httpRequestTests([
    {
        id: "RestJsonEveryPartOfARequest"
        documentation: "Labels, a literal and members of the query, a field and a document, whatever the order of the members."
        tags: ["own"]
        protocol: restJson1
        method: "PATCH"
        uri: "/things/a%2F1/x/y"
        queryParams: ["kind=thing", "tag=red", "tag=big%20one"]
        headers: { "Content-Type": "application/json", "If-Match": "*" }
        body: """
            {
                "note": "n",
                "parts": [
                    { "name": "p", "weight": 5 },
                    { "name": "" }
                ]
            }"""
        bodyMediaType: "application/json"
        params: {
            id: "a/1"
            rest: "x/y"
            tags: ["red", "big one"]
            match: "*"
            note: "n"
            pieces: [
                { name: "p", weight: 5 }
                { name: "" }
            ]
        }
    }
])

apply EveryPartOfARequest @httpResponseTests([
    {
        id: "RestJsonFieldBesideDocument"
        documentation: "A field with quotation marks is written as it is, since it is no list."
        tags: ["own"]
        protocol: restJson1
        code: 200
        headers: { "Content-Type": "application/json", "ETag": "\"a, b\"" }
        body: """
            { "count": 2 }"""
        bodyMediaType: "application/json"
        params: { tag: "\"a, b\"", count: 2 }
    }
])
