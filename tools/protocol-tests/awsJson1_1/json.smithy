$version: "2.0"

// AWS JSON 1.1 (Smithy 2.0, "AWS JSON 1.1 protocol"): heads, inputs that may be absent, enums, unions, nulls, moments, errors.
namespace aws.protocoltests.json

use aws.protocols#awsJson1_1
use smithy.test#httpRequestTests
use smithy.test#httpResponseTests

@awsJson1_1
service JsonProtocol {
    version: "2018-01-01"
    operations: [
        EmptyOperation
        FractionalSeconds
        GreetingWithErrors
        JsonEnums
        JsonIntEnums
        JsonUnions
        NullOperation
        OperationWithOptionalInputOutput
        SparseNullsOperation
    ]
}

// Heads

operation EmptyOperation {}

apply EmptyOperation @httpRequestTests([
    {
        id: "sends_requests_to_slash"
        documentation: "Every request is a POST to the path of one slash."
        protocol: awsJson1_1
        method: "POST"
        uri: "/"
        headers: { "Content-Type": "application/x-amz-json-1.1", "X-Amz-Target": "JsonProtocol.EmptyOperation" }
        body: "{}"
        bodyMediaType: "application/json"
        params: {}
    }
    {
        id: "includes_x_amz_target_and_content_type"
        documentation: "Every request names service and operation, and its media type."
        protocol: awsJson1_1
        method: "POST"
        uri: "/"
        headers: { "Content-Type": "application/x-amz-json-1.1", "X-Amz-Target": "JsonProtocol.EmptyOperation" }
        requireHeaders: ["Content-Length", "Host"]
        body: "{}"
        bodyMediaType: "application/json"
        params: {}
    }
    {
        id: "json_1_1_client_sends_empty_payload_for_no_input_shape"
        documentation: "A request without an input has an empty JSON object as its body."
        protocol: awsJson1_1
        method: "POST"
        uri: "/"
        headers: { "Content-Type": "application/x-amz-json-1.1", "X-Amz-Target": "JsonProtocol.EmptyOperation" }
        body: "{}"
        bodyMediaType: "application/json"
        params: {}
    }
])

apply EmptyOperation @httpResponseTests([
    {
        id: "handles_empty_output_shape"
        documentation: "A response without an output has an empty JSON object as its body."
        protocol: awsJson1_1
        code: 200
        headers: { "Content-Type": "application/x-amz-json-1.1" }
        requireHeaders: ["Content-Length"]
        body: "{}"
        bodyMediaType: "application/json"
        params: {}
    }
])

operation OperationWithOptionalInputOutput {
    input := {
        Value: String
    }

    output := {
        Value: String
    }
}

apply OperationWithOptionalInputOutput @httpRequestTests([
    {
        id: "can_call_operation_with_no_input_or_output"
        documentation: "An input of which no member is set is an empty JSON object."
        protocol: awsJson1_1
        method: "POST"
        uri: "/"
        headers: { "Content-Type": "application/x-amz-json-1.1", "X-Amz-Target": "JsonProtocol.OperationWithOptionalInputOutput" }
        body: "{}"
        bodyMediaType: "application/json"
        params: {}
    }
    {
        id: "can_call_operation_with_optional_input"
        documentation: "An input with a member."
        protocol: awsJson1_1
        method: "POST"
        uri: "/"
        headers: { "Content-Type": "application/x-amz-json-1.1", "X-Amz-Target": "JsonProtocol.OperationWithOptionalInputOutput" }
        body: """
            { "Value": "Hi" }"""
        bodyMediaType: "application/json"
        params: { Value: "Hi" }
    }
])

apply OperationWithOptionalInputOutput @httpResponseTests([
    {
        id: "can_answer_with_optional_output"
        documentation: "An output with a member."
        tags: ["own"]
        protocol: awsJson1_1
        code: 200
        headers: { "Content-Type": "application/x-amz-json-1.1" }
        body: """
            { "Value": "Hi" }"""
        bodyMediaType: "application/json"
        params: { Value: "Hi" }
    }
])

// Enums

operation JsonEnums {
    input: JsonEnumsInputOutput
    output: JsonEnumsInputOutput
}

structure JsonEnumsInputOutput {
    fooEnum1: FooEnum
    fooEnum2: FooEnum
    fooEnum3: FooEnum
    fooEnumList: FooEnumList
    fooEnumSet: FooEnumSet
    fooEnumMap: FooEnumMap
}

enum FooEnum {
    FOO = "Foo"
    BAZ = "Baz"
    BAR = "Bar"
    ONE = "1"
    ZERO = "0"
}

list FooEnumList {
    member: FooEnum
}

@uniqueItems
list FooEnumSet {
    member: FooEnum
}

map FooEnumMap {
    key: String
    value: FooEnum
}

apply JsonEnums @httpRequestTests([
    {
        id: "AwsJson11Enums"
        documentation: "Enums are their values, by themselves, in lists and in maps."
        protocol: awsJson1_1
        method: "POST"
        uri: "/"
        headers: { "Content-Type": "application/x-amz-json-1.1", "X-Amz-Target": "JsonProtocol.JsonEnums" }
        body: """
            {
                "fooEnum1": "Foo",
                "fooEnum2": "0",
                "fooEnum3": "1",
                "fooEnumList": ["Foo", "0"],
                "fooEnumSet": ["Foo", "0"],
                "fooEnumMap": { "hi": "Foo", "zero": "0" }
            }"""
        bodyMediaType: "application/json"
        params: {
            fooEnum1: "Foo"
            fooEnum2: "0"
            fooEnum3: "1"
            fooEnumList: ["Foo", "0"]
            fooEnumSet: ["Foo", "0"]
            fooEnumMap: { hi: "Foo", zero: "0" }
        }
    }
])

apply JsonEnums @httpResponseTests([
    {
        id: "AwsJson11Enums"
        documentation: "Enums are their values, by themselves, in lists and in maps."
        protocol: awsJson1_1
        code: 200
        headers: { "Content-Type": "application/x-amz-json-1.1" }
        body: """
            {
                "fooEnum1": "Foo",
                "fooEnum2": "0",
                "fooEnum3": "1",
                "fooEnumList": ["Foo", "0"],
                "fooEnumSet": ["Foo", "0"],
                "fooEnumMap": { "hi": "Foo", "zero": "0" }
            }"""
        bodyMediaType: "application/json"
        params: {
            fooEnum1: "Foo"
            fooEnum2: "0"
            fooEnum3: "1"
            fooEnumList: ["Foo", "0"]
            fooEnumSet: ["Foo", "0"]
            fooEnumMap: { hi: "Foo", zero: "0" }
        }
    }
])

operation JsonIntEnums {
    input: JsonIntEnumsInputOutput
    output: JsonIntEnumsInputOutput
}

structure JsonIntEnumsInputOutput {
    intEnum1: IntegerEnum
    intEnum2: IntegerEnum
    intEnum3: IntegerEnum
    intEnumList: IntegerEnumList
    intEnumSet: IntegerEnumSet
    intEnumMap: IntegerEnumMap
}

intEnum IntegerEnum {
    A = 1
    B = 2
    C = 3
}

list IntegerEnumList {
    member: IntegerEnum
}

@uniqueItems
list IntegerEnumSet {
    member: IntegerEnum
}

map IntegerEnumMap {
    key: String
    value: IntegerEnum
}

apply JsonIntEnums @httpRequestTests([
    {
        id: "AwsJson11IntEnums"
        documentation: "IntEnums are numbers, by themselves, in lists and in maps."
        protocol: awsJson1_1
        method: "POST"
        uri: "/"
        headers: { "Content-Type": "application/x-amz-json-1.1", "X-Amz-Target": "JsonProtocol.JsonIntEnums" }
        body: """
            {
                "intEnum1": 1,
                "intEnum2": 2,
                "intEnum3": 3,
                "intEnumList": [1, 2, 3],
                "intEnumSet": [1, 2],
                "intEnumMap": { "abc": 1, "def": 2 }
            }"""
        bodyMediaType: "application/json"
        params: {
            intEnum1: 1
            intEnum2: 2
            intEnum3: 3
            intEnumList: [1, 2, 3]
            intEnumSet: [1, 2]
            intEnumMap: { abc: 1, def: 2 }
        }
    }
])

apply JsonIntEnums @httpResponseTests([
    {
        id: "AwsJson11IntEnums"
        documentation: "IntEnums are numbers, by themselves, in lists and in maps."
        protocol: awsJson1_1
        code: 200
        headers: { "Content-Type": "application/x-amz-json-1.1" }
        body: """
            {
                "intEnum1": 1,
                "intEnum2": 2,
                "intEnum3": 3,
                "intEnumList": [1, 2, 3],
                "intEnumSet": [1, 2],
                "intEnumMap": { "abc": 1, "def": 2 }
            }"""
        bodyMediaType: "application/json"
        params: {
            intEnum1: 1
            intEnum2: 2
            intEnum3: 3
            intEnumList: [1, 2, 3]
            intEnumSet: [1, 2]
            intEnumMap: { abc: 1, def: 2 }
        }
    }
])

// Unions

operation JsonUnions {
    input: UnionInputOutput
    output: UnionInputOutput
}

structure UnionInputOutput {
    contents: MyUnion
}

union MyUnion {
    stringValue: String
    booleanValue: Boolean
    numberValue: Integer
    blobValue: Blob
    timestampValue: Timestamp
    enumValue: FooEnum
    listValue: StringList
    mapValue: StringMap
    structureValue: GreetingStruct
}

list StringList {
    member: String
}

map StringMap {
    key: String
    value: String
}

structure GreetingStruct {
    hi: String
}

apply JsonUnions @httpRequestTests([
    {
        id: "AwsJson11SerializeStringUnionValue"
        documentation: "A union is an object with the one member that is set: a string."
        protocol: awsJson1_1
        method: "POST"
        uri: "/"
        headers: { "Content-Type": "application/x-amz-json-1.1", "X-Amz-Target": "JsonProtocol.JsonUnions" }
        body: """
            { "contents": { "stringValue": "foo" } }"""
        bodyMediaType: "application/json"
        params: { contents: { stringValue: "foo" } }
    }
    {
        id: "AwsJson11SerializeBooleanUnionValue"
        documentation: "A boolean in a union."
        protocol: awsJson1_1
        method: "POST"
        uri: "/"
        headers: { "Content-Type": "application/x-amz-json-1.1", "X-Amz-Target": "JsonProtocol.JsonUnions" }
        body: """
            { "contents": { "booleanValue": true } }"""
        bodyMediaType: "application/json"
        params: { contents: { booleanValue: true } }
    }
    {
        id: "AwsJson11SerializeNumberUnionValue"
        documentation: "A number in a union."
        protocol: awsJson1_1
        method: "POST"
        uri: "/"
        headers: { "Content-Type": "application/x-amz-json-1.1", "X-Amz-Target": "JsonProtocol.JsonUnions" }
        body: """
            { "contents": { "numberValue": 1 } }"""
        bodyMediaType: "application/json"
        params: { contents: { numberValue: 1 } }
    }
    {
        id: "AwsJson11SerializeBlobUnionValue"
        documentation: "A blob in a union is base64 text."
        protocol: awsJson1_1
        method: "POST"
        uri: "/"
        headers: { "Content-Type": "application/x-amz-json-1.1", "X-Amz-Target": "JsonProtocol.JsonUnions" }
        body: """
            { "contents": { "blobValue": "Zm9v" } }"""
        bodyMediaType: "application/json"
        params: { contents: { blobValue: "foo" } }
    }
    {
        id: "AwsJson11SerializeTimestampUnionValue"
        documentation: "A timestamp in a union is a number of seconds."
        protocol: awsJson1_1
        method: "POST"
        uri: "/"
        headers: { "Content-Type": "application/x-amz-json-1.1", "X-Amz-Target": "JsonProtocol.JsonUnions" }
        body: """
            { "contents": { "timestampValue": 1398796238 } }"""
        bodyMediaType: "application/json"
        params: { contents: { timestampValue: 1398796238 } }
    }
    {
        id: "AwsJson11SerializeEnumUnionValue"
        documentation: "An enum in a union is its value."
        protocol: awsJson1_1
        method: "POST"
        uri: "/"
        headers: { "Content-Type": "application/x-amz-json-1.1", "X-Amz-Target": "JsonProtocol.JsonUnions" }
        body: """
            { "contents": { "enumValue": "Foo" } }"""
        bodyMediaType: "application/json"
        params: { contents: { enumValue: "Foo" } }
    }
    {
        id: "AwsJson11SerializeListUnionValue"
        documentation: "A list in a union."
        protocol: awsJson1_1
        method: "POST"
        uri: "/"
        headers: { "Content-Type": "application/x-amz-json-1.1", "X-Amz-Target": "JsonProtocol.JsonUnions" }
        body: """
            { "contents": { "listValue": ["foo", "bar"] } }"""
        bodyMediaType: "application/json"
        params: { contents: { listValue: ["foo", "bar"] } }
    }
    {
        id: "AwsJson11SerializeMapUnionValue"
        documentation: "A map in a union."
        protocol: awsJson1_1
        method: "POST"
        uri: "/"
        headers: { "Content-Type": "application/x-amz-json-1.1", "X-Amz-Target": "JsonProtocol.JsonUnions" }
        body: """
            { "contents": { "mapValue": { "foo": "bar", "spam": "eggs" } } }"""
        bodyMediaType: "application/json"
        params: { contents: { mapValue: { foo: "bar", spam: "eggs" } } }
    }
    {
        id: "AwsJson11SerializeStructureUnionValue"
        documentation: "A structure in a union."
        protocol: awsJson1_1
        method: "POST"
        uri: "/"
        headers: { "Content-Type": "application/x-amz-json-1.1", "X-Amz-Target": "JsonProtocol.JsonUnions" }
        body: """
            { "contents": { "structureValue": { "hi": "hello" } } }"""
        bodyMediaType: "application/json"
        params: { contents: { structureValue: { hi: "hello" } } }
    }
])

apply JsonUnions @httpResponseTests([
    {
        id: "AwsJson11DeserializeStringUnionValue"
        documentation: "A string in a union."
        protocol: awsJson1_1
        code: 200
        headers: { "Content-Type": "application/x-amz-json-1.1" }
        body: """
            { "contents": { "stringValue": "foo" } }"""
        bodyMediaType: "application/json"
        params: { contents: { stringValue: "foo" } }
    }
    {
        id: "AwsJson11DeserializeBooleanUnionValue"
        documentation: "A boolean in a union."
        protocol: awsJson1_1
        code: 200
        headers: { "Content-Type": "application/x-amz-json-1.1" }
        body: """
            { "contents": { "booleanValue": true } }"""
        bodyMediaType: "application/json"
        params: { contents: { booleanValue: true } }
    }
    {
        id: "AwsJson11DeserializeNumberUnionValue"
        documentation: "A number in a union."
        protocol: awsJson1_1
        code: 200
        headers: { "Content-Type": "application/x-amz-json-1.1" }
        body: """
            { "contents": { "numberValue": 1 } }"""
        bodyMediaType: "application/json"
        params: { contents: { numberValue: 1 } }
    }
    {
        id: "AwsJson11DeserializeBlobUnionValue"
        documentation: "A blob in a union."
        protocol: awsJson1_1
        code: 200
        headers: { "Content-Type": "application/x-amz-json-1.1" }
        body: """
            { "contents": { "blobValue": "Zm9v" } }"""
        bodyMediaType: "application/json"
        params: { contents: { blobValue: "foo" } }
    }
    {
        id: "AwsJson11DeserializeTimestampUnionValue"
        documentation: "A timestamp in a union."
        protocol: awsJson1_1
        code: 200
        headers: { "Content-Type": "application/x-amz-json-1.1" }
        body: """
            { "contents": { "timestampValue": 1398796238 } }"""
        bodyMediaType: "application/json"
        params: { contents: { timestampValue: 1398796238 } }
    }
    {
        id: "AwsJson11DeserializeEnumUnionValue"
        documentation: "An enum in a union."
        protocol: awsJson1_1
        code: 200
        headers: { "Content-Type": "application/x-amz-json-1.1" }
        body: """
            { "contents": { "enumValue": "Foo" } }"""
        bodyMediaType: "application/json"
        params: { contents: { enumValue: "Foo" } }
    }
    {
        id: "AwsJson11DeserializeListUnionValue"
        documentation: "A list in a union."
        protocol: awsJson1_1
        code: 200
        headers: { "Content-Type": "application/x-amz-json-1.1" }
        body: """
            { "contents": { "listValue": ["foo", "bar"] } }"""
        bodyMediaType: "application/json"
        params: { contents: { listValue: ["foo", "bar"] } }
    }
    {
        id: "AwsJson11DeserializeMapUnionValue"
        documentation: "A map in a union."
        protocol: awsJson1_1
        code: 200
        headers: { "Content-Type": "application/x-amz-json-1.1" }
        body: """
            { "contents": { "mapValue": { "foo": "bar", "spam": "eggs" } } }"""
        bodyMediaType: "application/json"
        params: { contents: { mapValue: { foo: "bar", spam: "eggs" } } }
    }
    {
        id: "AwsJson11DeserializeStructureUnionValue"
        documentation: "A structure in a union."
        protocol: awsJson1_1
        code: 200
        headers: { "Content-Type": "application/x-amz-json-1.1" }
        body: """
            { "contents": { "structureValue": { "hi": "hello" } } }"""
        bodyMediaType: "application/json"
        params: { contents: { structureValue: { hi: "hello" } } }
    }
])

// Nulls

operation NullOperation {
    input := {
        string: String
    }

    output := {
        string: String
    }
}

apply NullOperation @httpRequestTests([
    {
        id: "AwsJson11StructuresDontSerializeNullValues"
        documentation: "A member that is null is absent, and isn't written."
        protocol: awsJson1_1
        method: "POST"
        uri: "/"
        headers: { "Content-Type": "application/x-amz-json-1.1", "X-Amz-Target": "JsonProtocol.NullOperation" }
        body: "{}"
        bodyMediaType: "application/json"
        params: { string: null }
    }
])

apply NullOperation @httpResponseTests([
    {
        id: "AwsJson11StructuresDontSerializeNullValuesInResponses"
        documentation: "A member that is null is absent, and isn't written."
        tags: ["own"]
        protocol: awsJson1_1
        code: 200
        headers: { "Content-Type": "application/x-amz-json-1.1" }
        body: "{}"
        bodyMediaType: "application/json"
        params: { string: null }
    }
])

operation SparseNullsOperation {
    input: SparseNullsOperationInputOutput
    output: SparseNullsOperationInputOutput
}

structure SparseNullsOperationInputOutput {
    sparseStringList: SparseStringList
    sparseStringMap: SparseStringMap
}

@sparse
list SparseStringList {
    member: String
}

@sparse
map SparseStringMap {
    key: String
    value: String
}

apply SparseNullsOperation @httpRequestTests([
    {
        id: "AwsJson11SparseMapsSerializeNullValues"
        documentation: "A sparse map has null under a key without a value."
        protocol: awsJson1_1
        method: "POST"
        uri: "/"
        headers: { "Content-Type": "application/x-amz-json-1.1", "X-Amz-Target": "JsonProtocol.SparseNullsOperation" }
        body: """
            { "sparseStringMap": { "foo": null } }"""
        bodyMediaType: "application/json"
        params: { sparseStringMap: { foo: null } }
    }
    {
        id: "AwsJson11SparseListsSerializeNull"
        documentation: "A sparse list has null for an entry without a value."
        protocol: awsJson1_1
        method: "POST"
        uri: "/"
        headers: { "Content-Type": "application/x-amz-json-1.1", "X-Amz-Target": "JsonProtocol.SparseNullsOperation" }
        body: """
            { "sparseStringList": [null] }"""
        bodyMediaType: "application/json"
        params: { sparseStringList: [null] }
    }
])

apply SparseNullsOperation @httpResponseTests([
    {
        id: "AwsJson11SparseMapsDeserializeNullValues"
        documentation: "A sparse map keeps null."
        protocol: awsJson1_1
        code: 200
        headers: { "Content-Type": "application/x-amz-json-1.1" }
        body: """
            { "sparseStringMap": { "foo": null, "bar": "" } }"""
        bodyMediaType: "application/json"
        params: { sparseStringMap: { foo: null, bar: "" } }
    }
    {
        id: "AwsJson11SparseListsDeserializeNull"
        documentation: "A sparse list keeps null."
        protocol: awsJson1_1
        code: 200
        headers: { "Content-Type": "application/x-amz-json-1.1" }
        body: """
            { "sparseStringList": ["a", null, "b"] }"""
        bodyMediaType: "application/json"
        params: { sparseStringList: ["a", null, "b"] }
    }
])

// Moments

operation FractionalSeconds {
    output := {
        datetime: DateTime
    }
}

@timestampFormat("date-time")
timestamp DateTime

apply FractionalSeconds @httpResponseTests([
    {
        id: "AwsJson11DateTimeWithFractionalSeconds"
        documentation: "A moment between two seconds has three digits of a fraction."
        protocol: awsJson1_1
        code: 200
        headers: { "Content-Type": "application/x-amz-json-1.1" }
        body: """
            { "datetime": "2000-01-02T20:34:56.123Z" }"""
        bodyMediaType: "application/json"
        params: { datetime: 946845296.123 }
    }
])

// Errors

/// Answers with a greeting, or with one of three errors.
operation GreetingWithErrors {
    output := {
        greeting: String
    }

    errors: [
        ComplexError
        FooError
        InvalidGreeting
    ]
}

/// The client's fault.
@error("client")
structure InvalidGreeting {
    Message: String
}

apply InvalidGreeting @httpResponseTests([
    {
        id: "AwsJson11InvalidGreetingError"
        documentation: "A client's error has the status 400 and names its shape without a namespace."
        protocol: awsJson1_1
        code: 400
        headers: { "Content-Type": "application/x-amz-json-1.1" }
        body: """
            { "__type": "InvalidGreeting", "Message": "Hi" }"""
        bodyMediaType: "application/json"
        params: { Message: "Hi" }
    }
])

/// The service's fault, with no members.
@error("server")
structure FooError {}

apply FooError @httpResponseTests([
    {
        id: "AwsJson11FooErrorWithDunderType"
        documentation: "A server's error has the status 500. The body's __type is the shape's name."
        protocol: awsJson1_1
        code: 500
        headers: { "Content-Type": "application/x-amz-json-1.1" }
        body: """
            { "__type": "FooError" }"""
        bodyMediaType: "application/json"
        params: {}
    }
])

/// An error with members of its own.
@error("client")
structure ComplexError {
    TopLevel: String
    Nested: ComplexNestedErrorData
}

structure ComplexNestedErrorData {
    Foo: String
}

apply ComplexError @httpResponseTests([
    {
        id: "AwsJson11ComplexError"
        documentation: "The members of an error stand beside its __type."
        protocol: awsJson1_1
        code: 400
        headers: { "Content-Type": "application/x-amz-json-1.1" }
        body: """
            {
                "__type": "ComplexError",
                "TopLevel": "Top level",
                "Nested": { "Foo": "bar" }
            }"""
        bodyMediaType: "application/json"
        params: { TopLevel: "Top level", Nested: { Foo: "bar" } }
    }
    {
        id: "AwsJson11EmptyComplexError"
        documentation: "An error of which no member is set has its __type alone."
        protocol: awsJson1_1
        code: 400
        headers: { "Content-Type": "application/x-amz-json-1.1" }
        body: """
            { "__type": "ComplexError" }"""
        bodyMediaType: "application/json"
        params: {}
    }
])
