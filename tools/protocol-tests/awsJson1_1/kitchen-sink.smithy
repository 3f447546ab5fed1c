$version: "2.0"

// AWS JSON 1.1 (Smithy 2.0, "AWS JSON 1.1 protocol"): one structure with a member of every kind, which holds itself too.
namespace aws.protocoltests.json.kitchensink

use aws.protocols#awsJson1_1
use smithy.test#httpRequestTests
use smithy.test#httpResponseTests

@awsJson1_1
service JsonProtocol {
    version: "2018-01-01"
    operations: [KitchenSinkOperation]
}

operation KitchenSinkOperation {
    input: KitchenSink
    output: KitchenSink
    errors: [ErrorWithMembers, ErrorWithoutMembers]
}

structure KitchenSink {
    Blob: Blob

    Boolean: Boolean

    EmptyStruct: EmptyStruct

    @timestampFormat("http-date")
    HttpdateTimestamp: Timestamp

    Integer: Integer

    @timestampFormat("date-time")
    Iso8601Timestamp: Timestamp

    JsonValue: JsonValue

    ListOfLists: ListOfListOfStrings

    ListOfMapsOfStrings: ListOfMapsOfStrings

    ListOfStrings: ListOfStrings

    ListOfStructs: ListOfStructs

    Long: Long

    MapOfListsOfStrings: MapOfListsOfStrings

    MapOfMaps: MapOfMapOfStrings

    MapOfStrings: MapOfStrings

    MapOfStructs: MapOfStructs

    RecursiveList: ListOfKitchenSinks

    RecursiveMap: MapOfKitchenSinks

    RecursiveStruct: KitchenSink

    SimpleStruct: SimpleStruct

    String: String

    StructWithJsonName: StructWithJsonName

    Timestamp: Timestamp

    @timestampFormat("epoch-seconds")
    UnixTimestamp: Timestamp
}

structure EmptyStruct {}

structure SimpleStruct {
    Value: String
}

structure StructWithJsonName {
    @jsonName("RenamedMember")
    Value: String
}

@mediaType("application/json")
string JsonValue

list ListOfStrings {
    member: String
}

list ListOfListOfStrings {
    member: ListOfStrings
}

list ListOfMapsOfStrings {
    member: MapOfStrings
}

list ListOfStructs {
    member: SimpleStruct
}

list ListOfKitchenSinks {
    member: KitchenSink
}

map MapOfStrings {
    key: String
    value: String
}

map MapOfListsOfStrings {
    key: String
    value: ListOfStrings
}

map MapOfMapOfStrings {
    key: String
    value: MapOfStrings
}

map MapOfStructs {
    key: String
    value: SimpleStruct
}

map MapOfKitchenSinks {
    key: String
    value: KitchenSink
}

apply KitchenSinkOperation @httpRequestTests([
    {
        id: "serializes_string_shapes"
        documentation: "A string."
        protocol: awsJson1_1
        method: "POST"
        uri: "/"
        headers: { "Content-Type": "application/x-amz-json-1.1", "X-Amz-Target": "JsonProtocol.KitchenSinkOperation" }
        requireHeaders: ["Content-Length"]
        body: """
            { "String": "abc xyz" }"""
        bodyMediaType: "application/json"
        params: { String: "abc xyz" }
    }
    {
        id: "serializes_string_shapes_with_jsonvalue_trait"
        documentation: "A string whose media type is JSON is text as any other string."
        protocol: awsJson1_1
        method: "POST"
        uri: "/"
        headers: { "Content-Type": "application/x-amz-json-1.1", "X-Amz-Target": "JsonProtocol.KitchenSinkOperation" }
        body: """
            { "JsonValue": "{\\"string\\":\\"value\\",\\"number\\":1234.5,\\"boolTrue\\":true,\\"array\\":[1,2,3,4],\\"null\\":null}" }"""
        bodyMediaType: "application/json"
        params: { JsonValue: "{\"string\":\"value\",\"number\":1234.5,\"boolTrue\":true,\"array\":[1,2,3,4],\"null\":null}" }
    }
    {
        id: "serializes_integer_shapes"
        documentation: "An integer."
        protocol: awsJson1_1
        method: "POST"
        uri: "/"
        headers: { "Content-Type": "application/x-amz-json-1.1", "X-Amz-Target": "JsonProtocol.KitchenSinkOperation" }
        body: """
            { "Integer": 1234 }"""
        bodyMediaType: "application/json"
        params: { Integer: 1234 }
    }
    {
        id: "serializes_long_shapes"
        documentation: "A long."
        protocol: awsJson1_1
        method: "POST"
        uri: "/"
        headers: { "Content-Type": "application/x-amz-json-1.1", "X-Amz-Target": "JsonProtocol.KitchenSinkOperation" }
        body: """
            { "Long": 999999999999 }"""
        bodyMediaType: "application/json"
        params: { Long: 999999999999 }
    }
    {
        id: "serializes_blob_shapes"
        documentation: "A blob is base64 text."
        protocol: awsJson1_1
        method: "POST"
        uri: "/"
        headers: { "Content-Type": "application/x-amz-json-1.1", "X-Amz-Target": "JsonProtocol.KitchenSinkOperation" }
        body: """
            { "Blob": "YmluYXJ5LXZhbHVl" }"""
        bodyMediaType: "application/json"
        params: { Blob: "binary-value" }
    }
    {
        id: "serializes_boolean_shapes_true"
        documentation: "The truth value true."
        protocol: awsJson1_1
        method: "POST"
        uri: "/"
        headers: { "Content-Type": "application/x-amz-json-1.1", "X-Amz-Target": "JsonProtocol.KitchenSinkOperation" }
        body: """
            { "Boolean": true }"""
        bodyMediaType: "application/json"
        params: { Boolean: true }
    }
    {
        id: "serializes_boolean_shapes_false"
        documentation: "The truth value false is written; it isn't absent."
        protocol: awsJson1_1
        method: "POST"
        uri: "/"
        headers: { "Content-Type": "application/x-amz-json-1.1", "X-Amz-Target": "JsonProtocol.KitchenSinkOperation" }
        body: """
            { "Boolean": false }"""
        bodyMediaType: "application/json"
        params: { Boolean: false }
    }
    {
        id: "serializes_timestamp_shapes"
        documentation: "A timestamp without a format is a number of seconds."
        protocol: awsJson1_1
        method: "POST"
        uri: "/"
        headers: { "Content-Type": "application/x-amz-json-1.1", "X-Amz-Target": "JsonProtocol.KitchenSinkOperation" }
        body: """
            { "Timestamp": 946845296 }"""
        bodyMediaType: "application/json"
        params: { Timestamp: 946845296 }
    }
    {
        id: "serializes_timestamp_shapes_with_iso8601_timestampformat"
        documentation: "A timestamp of the format date-time."
        protocol: awsJson1_1
        method: "POST"
        uri: "/"
        headers: { "Content-Type": "application/x-amz-json-1.1", "X-Amz-Target": "JsonProtocol.KitchenSinkOperation" }
        body: """
            { "Iso8601Timestamp": "2000-01-02T20:34:56Z" }"""
        bodyMediaType: "application/json"
        params: { Iso8601Timestamp: 946845296 }
    }
    {
        id: "serializes_timestamp_shapes_with_httpdate_timestampformat"
        documentation: "A timestamp of the format http-date."
        protocol: awsJson1_1
        method: "POST"
        uri: "/"
        headers: { "Content-Type": "application/x-amz-json-1.1", "X-Amz-Target": "JsonProtocol.KitchenSinkOperation" }
        body: """
            { "HttpdateTimestamp": "Sun, 02 Jan 2000 20:34:56 GMT" }"""
        bodyMediaType: "application/json"
        params: { HttpdateTimestamp: 946845296 }
    }
    {
        id: "serializes_timestamp_shapes_with_unixtimestamp_timestampformat"
        documentation: "A timestamp of the format epoch-seconds."
        protocol: awsJson1_1
        method: "POST"
        uri: "/"
        headers: { "Content-Type": "application/x-amz-json-1.1", "X-Amz-Target": "JsonProtocol.KitchenSinkOperation" }
        body: """
            { "UnixTimestamp": 946845296 }"""
        bodyMediaType: "application/json"
        params: { UnixTimestamp: 946845296 }
    }
    {
        id: "serializes_timestamps_between_seconds"
        documentation: "Fractions of a second: a number without trailing zeros, a date-time with three digits; also before 1970."
        tags: ["own"]
        protocol: awsJson1_1
        method: "POST"
        uri: "/"
        headers: { "Content-Type": "application/x-amz-json-1.1", "X-Amz-Target": "JsonProtocol.KitchenSinkOperation" }
        body: """
            { "Timestamp": 0.5, "UnixTimestamp": -1.25, "Iso8601Timestamp": "1969-12-31T23:59:58.750Z" }"""
        bodyMediaType: "application/json"
        params: { Timestamp: 0.5, UnixTimestamp: -1.25, Iso8601Timestamp: -1.25 }
    }
    {
        id: "serializes_list_shapes"
        documentation: "A list."
        protocol: awsJson1_1
        method: "POST"
        uri: "/"
        headers: { "Content-Type": "application/x-amz-json-1.1", "X-Amz-Target": "JsonProtocol.KitchenSinkOperation" }
        body: """
            { "ListOfStrings": ["abc", "mno", "xyz"] }"""
        bodyMediaType: "application/json"
        params: { ListOfStrings: ["abc", "mno", "xyz"] }
    }
    {
        id: "serializes_empty_list_shapes"
        documentation: "A list without entries is written; it isn't absent."
        protocol: awsJson1_1
        method: "POST"
        uri: "/"
        headers: { "Content-Type": "application/x-amz-json-1.1", "X-Amz-Target": "JsonProtocol.KitchenSinkOperation" }
        body: """
            { "ListOfStrings": [] }"""
        bodyMediaType: "application/json"
        params: { ListOfStrings: [] }
    }
    {
        id: "serializes_list_of_map_shapes"
        documentation: "A list of maps."
        protocol: awsJson1_1
        method: "POST"
        uri: "/"
        headers: { "Content-Type": "application/x-amz-json-1.1", "X-Amz-Target": "JsonProtocol.KitchenSinkOperation" }
        body: """
            { "ListOfMapsOfStrings": [{ "foo": "bar" }, { "abc": "xyz" }, { "red": "blue" }] }"""
        bodyMediaType: "application/json"
        params: {
            ListOfMapsOfStrings: [{ foo: "bar" }, { abc: "xyz" }, { red: "blue" }]
        }
    }
    {
        id: "serializes_list_of_structure_shapes"
        documentation: "A list of structures."
        protocol: awsJson1_1
        method: "POST"
        uri: "/"
        headers: { "Content-Type": "application/x-amz-json-1.1", "X-Amz-Target": "JsonProtocol.KitchenSinkOperation" }
        body: """
            { "ListOfStructs": [{ "Value": "abc" }, { "Value": "mno" }, { "Value": "xyz" }] }"""
        bodyMediaType: "application/json"
        params: {
            ListOfStructs: [{ Value: "abc" }, { Value: "mno" }, { Value: "xyz" }]
        }
    }
    {
        id: "serializes_list_of_recursive_structure_shapes"
        documentation: "A list of structures that hold such lists."
        protocol: awsJson1_1
        method: "POST"
        uri: "/"
        headers: { "Content-Type": "application/x-amz-json-1.1", "X-Amz-Target": "JsonProtocol.KitchenSinkOperation" }
        body: """
            { "RecursiveList": [{ "RecursiveList": [{ "RecursiveList": [{ "Integer": 123 }] }] }] }"""
        bodyMediaType: "application/json"
        params: {
            RecursiveList: [{ RecursiveList: [{ RecursiveList: [{ Integer: 123 }] }] }]
        }
    }
    {
        id: "serializes_map_shapes"
        documentation: "A map."
        protocol: awsJson1_1
        method: "POST"
        uri: "/"
        headers: { "Content-Type": "application/x-amz-json-1.1", "X-Amz-Target": "JsonProtocol.KitchenSinkOperation" }
        body: """
            { "MapOfStrings": { "abc": "xyz", "mno": "hjk" } }"""
        bodyMediaType: "application/json"
        params: { MapOfStrings: { abc: "xyz", mno: "hjk" } }
    }
    {
        id: "serializes_empty_map_shapes"
        documentation: "A map without entries is written; it isn't absent."
        protocol: awsJson1_1
        method: "POST"
        uri: "/"
        headers: { "Content-Type": "application/x-amz-json-1.1", "X-Amz-Target": "JsonProtocol.KitchenSinkOperation" }
        body: """
            { "MapOfStrings": {} }"""
        bodyMediaType: "application/json"
        params: { MapOfStrings: {} }
    }
    {
        id: "serializes_map_of_list_shapes"
        documentation: "A map of lists."
        protocol: awsJson1_1
        method: "POST"
        uri: "/"
        headers: { "Content-Type": "application/x-amz-json-1.1", "X-Amz-Target": "JsonProtocol.KitchenSinkOperation" }
        body: """
            { "MapOfListsOfStrings": { "abc": ["abc", "xyz"], "mno": ["xyz", "abc"] } }"""
        bodyMediaType: "application/json"
        params: {
            MapOfListsOfStrings: { abc: ["abc", "xyz"], mno: ["xyz", "abc"] }
        }
    }
    {
        id: "serializes_map_of_structure_shapes"
        documentation: "A map of structures."
        protocol: awsJson1_1
        method: "POST"
        uri: "/"
        headers: { "Content-Type": "application/x-amz-json-1.1", "X-Amz-Target": "JsonProtocol.KitchenSinkOperation" }
        body: """
            { "MapOfStructs": { "key1": { "Value": "value-1" }, "key2": { "Value": "value-2" } } }"""
        bodyMediaType: "application/json"
        params: {
            MapOfStructs: { key1: { Value: "value-1" }, key2: { Value: "value-2" } }
        }
    }
    {
        id: "serializes_map_of_recursive_structure_shapes"
        documentation: "A map of structures that hold such maps."
        protocol: awsJson1_1
        method: "POST"
        uri: "/"
        headers: { "Content-Type": "application/x-amz-json-1.1", "X-Amz-Target": "JsonProtocol.KitchenSinkOperation" }
        body: """
            {
                "RecursiveMap": {
                    "key1": { "RecursiveMap": { "key2": { "RecursiveMap": { "key3": { "Boolean": false } } } } }
                }
            }"""
        bodyMediaType: "application/json"
        params: {
            RecursiveMap: {
                key1: { RecursiveMap: { key2: { RecursiveMap: { key3: { Boolean: false } } } } }
            }
        }
    }
    {
        id: "serializes_structure_shapes"
        documentation: "A structure."
        protocol: awsJson1_1
        method: "POST"
        uri: "/"
        headers: { "Content-Type": "application/x-amz-json-1.1", "X-Amz-Target": "JsonProtocol.KitchenSinkOperation" }
        body: """
            { "SimpleStruct": { "Value": "abc" } }"""
        bodyMediaType: "application/json"
        params: { SimpleStruct: { Value: "abc" } }
    }
    {
        id: "serializes_structure_members_with_locationname_shapes"
        documentation: "A member with jsonName is written under its own name: the trait says nothing in this protocol."
        protocol: awsJson1_1
        method: "POST"
        uri: "/"
        headers: { "Content-Type": "application/x-amz-json-1.1", "X-Amz-Target": "JsonProtocol.KitchenSinkOperation" }
        body: """
            { "StructWithJsonName": { "Value": "some-value" } }"""
        bodyMediaType: "application/json"
        params: { StructWithJsonName: { Value: "some-value" } }
    }
    {
        id: "serializes_empty_structure_shapes"
        documentation: "A structure of which no member is set is an empty object."
        protocol: awsJson1_1
        method: "POST"
        uri: "/"
        headers: { "Content-Type": "application/x-amz-json-1.1", "X-Amz-Target": "JsonProtocol.KitchenSinkOperation" }
        body: """
            { "SimpleStruct": {} }"""
        bodyMediaType: "application/json"
        params: { SimpleStruct: {} }
    }
    {
        id: "serializes_structure_which_have_no_members"
        documentation: "A structure without members is an empty object."
        protocol: awsJson1_1
        method: "POST"
        uri: "/"
        headers: { "Content-Type": "application/x-amz-json-1.1", "X-Amz-Target": "JsonProtocol.KitchenSinkOperation" }
        body: """
            { "EmptyStruct": {} }"""
        bodyMediaType: "application/json"
        params: { EmptyStruct: {} }
    }
    {
        id: "serializes_recursive_structure_shapes"
        documentation: "A structure that holds itself, by members, lists and maps."
        protocol: awsJson1_1
        method: "POST"
        uri: "/"
        headers: { "Content-Type": "application/x-amz-json-1.1", "X-Amz-Target": "JsonProtocol.KitchenSinkOperation" }
        body: """
            {
                "String": "top-value",
                "Boolean": false,
                "RecursiveStruct": {
                    "String": "nested-value",
                    "Boolean": true,
                    "RecursiveList": [
                        { "String": "string-only" },
                        {
                            "RecursiveStruct": {
                                "MapOfStrings": { "color": "red", "size": "large" }
                            }
                        }
                    ]
                }
            }"""
        bodyMediaType: "application/json"
        params: {
            String: "top-value"
            Boolean: false
            RecursiveStruct: {
                String: "nested-value"
                Boolean: true
                RecursiveList: [
                    { String: "string-only" }
                    {
                        RecursiveStruct: {
                            MapOfStrings: { color: "red", size: "large" }
                        }
                    }
                ]
            }
        }
    }
])

apply KitchenSinkOperation @httpResponseTests([
    {
        id: "parses_operations_with_empty_json_bodies"
        documentation: "An output of which no member is set is an empty JSON object."
        protocol: awsJson1_1
        code: 200
        headers: { "Content-Type": "application/x-amz-json-1.1" }
        body: "{}"
        bodyMediaType: "application/json"
        params: {}
    }
    {
        id: "parses_string_shapes"
        documentation: "A string."
        protocol: awsJson1_1
        code: 200
        headers: { "Content-Type": "application/x-amz-json-1.1" }
        body: """
            { "String": "string-value" }"""
        bodyMediaType: "application/json"
        params: { String: "string-value" }
    }
    {
        id: "parses_integer_shapes"
        documentation: "An integer."
        protocol: awsJson1_1
        code: 200
        headers: { "Content-Type": "application/x-amz-json-1.1" }
        body: """
            { "Integer": 1234 }"""
        bodyMediaType: "application/json"
        params: { Integer: 1234 }
    }
    {
        id: "parses_long_shapes"
        documentation: "A long."
        protocol: awsJson1_1
        code: 200
        headers: { "Content-Type": "application/x-amz-json-1.1" }
        body: """
            { "Long": 1234567890123456789 }"""
        bodyMediaType: "application/json"
        params: { Long: 1234567890123456789 }
    }
    {
        id: "parses_boolean_shapes_true"
        documentation: "The truth value true."
        protocol: awsJson1_1
        code: 200
        headers: { "Content-Type": "application/x-amz-json-1.1" }
        body: """
            { "Boolean": true }"""
        bodyMediaType: "application/json"
        params: { Boolean: true }
    }
    {
        id: "parses_boolean_shapes_false"
        documentation: "The truth value false."
        protocol: awsJson1_1
        code: 200
        headers: { "Content-Type": "application/x-amz-json-1.1" }
        body: """
            { "Boolean": false }"""
        bodyMediaType: "application/json"
        params: { Boolean: false }
    }
    {
        id: "parses_blob_shapes"
        documentation: "A blob is base64 text."
        protocol: awsJson1_1
        code: 200
        headers: { "Content-Type": "application/x-amz-json-1.1" }
        body: """
            { "Blob": "YmluYXJ5LXZhbHVl" }"""
        bodyMediaType: "application/json"
        params: { Blob: "binary-value" }
    }
    {
        id: "parses_timestamp_shapes"
        documentation: "A timestamp without a format."
        protocol: awsJson1_1
        code: 200
        headers: { "Content-Type": "application/x-amz-json-1.1" }
        body: """
            { "Timestamp": 946845296 }"""
        bodyMediaType: "application/json"
        params: { Timestamp: 946845296 }
    }
    {
        id: "parses_iso8601_timestamps"
        documentation: "A timestamp of the format date-time."
        protocol: awsJson1_1
        code: 200
        headers: { "Content-Type": "application/x-amz-json-1.1" }
        body: """
            { "Iso8601Timestamp": "2000-01-02T20:34:56Z" }"""
        bodyMediaType: "application/json"
        params: { Iso8601Timestamp: 946845296 }
    }
    {
        id: "parses_httpdate_timestamps"
        documentation: "A timestamp of the format http-date."
        protocol: awsJson1_1
        code: 200
        headers: { "Content-Type": "application/x-amz-json-1.1" }
        body: """
            { "HttpdateTimestamp": "Sun, 02 Jan 2000 20:34:56 GMT" }"""
        bodyMediaType: "application/json"
        params: { HttpdateTimestamp: 946845296 }
    }
    {
        id: "parses_list_shapes"
        documentation: "A list."
        protocol: awsJson1_1
        code: 200
        headers: { "Content-Type": "application/x-amz-json-1.1" }
        body: """
            { "ListOfStrings": ["abc", "mno", "xyz"] }"""
        bodyMediaType: "application/json"
        params: { ListOfStrings: ["abc", "mno", "xyz"] }
    }
    {
        id: "parses_list_of_map_shapes"
        documentation: "A list of maps."
        protocol: awsJson1_1
        code: 200
        headers: { "Content-Type": "application/x-amz-json-1.1" }
        body: """
            { "ListOfMapsOfStrings": [{ "size": "large" }, { "color": "red" }] }"""
        bodyMediaType: "application/json"
        params: {
            ListOfMapsOfStrings: [{ size: "large" }, { color: "red" }]
        }
    }
    {
        id: "parses_list_of_list_shapes"
        documentation: "A list of lists."
        protocol: awsJson1_1
        code: 200
        headers: { "Content-Type": "application/x-amz-json-1.1" }
        body: """
            { "ListOfLists": [["abc", "mno", "xyz"], ["hjk", "qrs", "tuv"]] }"""
        bodyMediaType: "application/json"
        params: {
            ListOfLists: [["abc", "mno", "xyz"], ["hjk", "qrs", "tuv"]]
        }
    }
    {
        id: "parses_list_of_structure_shapes"
        documentation: "A list of structures."
        protocol: awsJson1_1
        code: 200
        headers: { "Content-Type": "application/x-amz-json-1.1" }
        body: """
            { "ListOfStructs": [{ "Value": "value-1" }, { "Value": "value-2" }] }"""
        bodyMediaType: "application/json"
        params: {
            ListOfStructs: [{ Value: "value-1" }, { Value: "value-2" }]
        }
    }
    {
        id: "parses_list_of_recursive_structure_shapes"
        documentation: "A list of structures that hold such lists."
        protocol: awsJson1_1
        code: 200
        headers: { "Content-Type": "application/x-amz-json-1.1" }
        body: """
            { "RecursiveList": [{ "RecursiveList": [{ "RecursiveList": [{ "String": "value" }] }] }] }"""
        bodyMediaType: "application/json"
        params: {
            RecursiveList: [{ RecursiveList: [{ RecursiveList: [{ String: "value" }] }] }]
        }
    }
    {
        id: "parses_map_shapes"
        documentation: "A map."
        protocol: awsJson1_1
        code: 200
        headers: { "Content-Type": "application/x-amz-json-1.1" }
        body: """
            { "MapOfStrings": { "size": "large", "color": "red" } }"""
        bodyMediaType: "application/json"
        params: { MapOfStrings: { size: "large", color: "red" } }
    }
    {
        id: "parses_map_of_list_shapes"
        documentation: "A map of lists."
        protocol: awsJson1_1
        code: 200
        headers: { "Content-Type": "application/x-amz-json-1.1" }
        body: """
            { "MapOfListsOfStrings": { "sizes": ["large", "small"], "colors": ["red", "green"] } }"""
        bodyMediaType: "application/json"
        params: {
            MapOfListsOfStrings: { sizes: ["large", "small"], colors: ["red", "green"] }
        }
    }
    {
        id: "parses_map_of_map_shapes"
        documentation: "A map of maps."
        protocol: awsJson1_1
        code: 200
        headers: { "Content-Type": "application/x-amz-json-1.1" }
        body: """
            { "MapOfMaps": { "sizes": { "large": "L", "medium": "M" }, "colors": { "red": "R", "blue": "B" } } }"""
        bodyMediaType: "application/json"
        params: {
            MapOfMaps: { sizes: { large: "L", medium: "M" }, colors: { red: "R", blue: "B" } }
        }
    }
    {
        id: "parses_map_of_structure_shapes"
        documentation: "A map of structures."
        protocol: awsJson1_1
        code: 200
        headers: { "Content-Type": "application/x-amz-json-1.1" }
        body: """
            { "MapOfStructs": { "size": { "Value": "small" }, "color": { "Value": "red" } } }"""
        bodyMediaType: "application/json"
        params: {
            MapOfStructs: { size: { Value: "small" }, color: { Value: "red" } }
        }
    }
    {
        id: "parses_map_of_recursive_structure_shapes"
        documentation: "A map of structures that hold such maps."
        protocol: awsJson1_1
        code: 200
        headers: { "Content-Type": "application/x-amz-json-1.1" }
        body: """
            {
                "RecursiveMap": {
                    "key-1": { "RecursiveMap": { "key-2": { "RecursiveMap": { "key-3": { "String": "value" } } } } }
                }
            }"""
        bodyMediaType: "application/json"
        params: {
            RecursiveMap: {
                "key-1": { RecursiveMap: { "key-2": { RecursiveMap: { "key-3": { String: "value" } } } } }
            }
        }
    }
])

@error("client")
structure ErrorWithMembers {
    Code: String
    ComplexData: KitchenSink
    IntegerField: Integer
    ListField: ListOfStrings
    MapField: MapOfStrings
    Message: String
    StringField: String
}

apply ErrorWithMembers @httpResponseTests([
    {
        id: "parses_errors_with_members"
        documentation: "An error with members of many kinds. A member named Code is one as any other."
        tags: ["own"]
        protocol: awsJson1_1
        code: 400
        headers: { "Content-Type": "application/x-amz-json-1.1" }
        body: """
            {
                "__type": "ErrorWithMembers",
                "Code": "InvalidParameter",
                "ComplexData": { "RecursiveStruct": { "Long": 1 } },
                "IntegerField": 2,
                "ListField": ["a"],
                "MapField": { "b": "c" },
                "Message": "not this",
                "StringField": ""
            }"""
        bodyMediaType: "application/json"
        params: {
            Code: "InvalidParameter"
            ComplexData: { RecursiveStruct: { Long: 1 } }
            IntegerField: 2
            ListField: ["a"]
            MapField: { b: "c" }
            Message: "not this"
            StringField: ""
        }
    }
])

@error("server")
structure ErrorWithoutMembers {}

apply ErrorWithoutMembers @httpResponseTests([
    {
        id: "parses_errors_without_members"
        documentation: "An error without members has its __type alone."
        tags: ["own"]
        protocol: awsJson1_1
        code: 500
        headers: { "Content-Type": "application/x-amz-json-1.1" }
        body: """
            { "__type": "ErrorWithoutMembers" }"""
        bodyMediaType: "application/json"
        params: {}
    }
])
