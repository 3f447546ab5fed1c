$version: "2.0"

// AWS JSON 1.0 (Smithy 2.0, "AWS JSON 1.0 protocol"): messages without members, values, unions, errors.
namespace aws.protocoltests.json10

use aws.protocols#awsJson1_0
use smithy.test#httpRequestTests
use smithy.test#httpResponseTests

@awsJson1_0
service JsonRpc10 {
    version: "2020-07-14"
    operations: [
        EmptyInputAndEmptyOutput
        GreetingWithErrors
        JsonUnions
        NoInputAndNoOutput
        NoInputAndOutput
        SimpleScalarProperties
    ]
}

// Messages without members

operation NoInputAndNoOutput {}

apply NoInputAndNoOutput @httpRequestTests([
    {
        id: "AwsJson10MustAlwaysSendEmptyJsonPayload"
        documentation: "A request without an input has an empty JSON object as its body."
        protocol: awsJson1_0
        method: "POST"
        uri: "/"
        headers: { "Content-Type": "application/x-amz-json-1.0", "X-Amz-Target": "JsonRpc10.NoInputAndNoOutput" }
        requireHeaders: ["Content-Length"]
        body: "{}"
        bodyMediaType: "application/json"
        params: {}
    }
])

apply NoInputAndNoOutput @httpResponseTests([
    {
        id: "AwsJson10HandlesEmptyOutputShape"
        documentation: "A response without an output has an empty JSON object as its body."
        protocol: awsJson1_0
        code: 200
        headers: { "Content-Type": "application/x-amz-json-1.0" }
        forbidHeaders: ["X-Amz-Target"]
        body: "{}"
        bodyMediaType: "application/json"
        params: {}
    }
])

operation NoInputAndOutput {
    output := {}
}

apply NoInputAndOutput @httpRequestTests([
    {
        id: "AwsJson10NoInputAndOutput"
        documentation: "An operation without an input has an empty JSON object as its request's body, whatever its output is."
        protocol: awsJson1_0
        method: "POST"
        uri: "/"
        headers: { "Content-Type": "application/x-amz-json-1.0", "X-Amz-Target": "JsonRpc10.NoInputAndOutput" }
        body: "{}"
        bodyMediaType: "application/json"
        params: {}
    }
])

apply NoInputAndOutput @httpResponseTests([
    {
        id: "AwsJson10NoInputAndOutput"
        documentation: "An output without members is an empty JSON object."
        protocol: awsJson1_0
        code: 200
        headers: { "Content-Type": "application/x-amz-json-1.0" }
        body: "{}"
        bodyMediaType: "application/json"
        params: {}
    }
])

operation EmptyInputAndEmptyOutput {
    input := {}
    output := {}
}

apply EmptyInputAndEmptyOutput @httpRequestTests([
    {
        id: "AwsJson10EmptyInputAndEmptyOutput"
        documentation: "An input without members is an empty JSON object."
        protocol: awsJson1_0
        method: "POST"
        uri: "/"
        headers: { "Content-Type": "application/x-amz-json-1.0", "X-Amz-Target": "JsonRpc10.EmptyInputAndEmptyOutput" }
        body: "{}"
        bodyMediaType: "application/json"
        params: {}
    }
])

apply EmptyInputAndEmptyOutput @httpResponseTests([
    {
        id: "AwsJson10EmptyInputAndEmptyOutput"
        documentation: "An output without members is an empty JSON object."
        protocol: awsJson1_0
        code: 200
        headers: { "Content-Type": "application/x-amz-json-1.0" }
        body: "{}"
        bodyMediaType: "application/json"
        params: {}
    }
])

// Values

operation SimpleScalarProperties {
    input: SimpleScalarPropertiesInputOutput
    output: SimpleScalarPropertiesInputOutput
}

structure SimpleScalarPropertiesInputOutput {
    stringValue: String

    trueBooleanValue: Boolean

    falseBooleanValue: Boolean

    byteValue: Byte

    shortValue: Short

    integerValue: Integer

    longValue: Long

    blobValue: Blob

    @jsonName("otherName")
    renamedValue: String
}

apply SimpleScalarProperties @httpRequestTests([
    {
        id: "AwsJson10SimpleScalarProperties"
        documentation: "Simple values stand under the names of their members; jsonName says nothing in this protocol."
        tags: ["own"]
        protocol: awsJson1_0
        method: "POST"
        uri: "/"
        headers: { "Content-Type": "application/x-amz-json-1.0", "X-Amz-Target": "JsonRpc10.SimpleScalarProperties" }
        body: """
            {
                "stringValue": "string",
                "trueBooleanValue": true,
                "falseBooleanValue": false,
                "byteValue": 1,
                "shortValue": 2,
                "integerValue": 3,
                "longValue": 4,
                "blobValue": "YmxvYg==",
                "renamedValue": "name"
            }"""
        bodyMediaType: "application/json"
        params: {
            stringValue: "string"
            trueBooleanValue: true
            falseBooleanValue: false
            byteValue: 1
            shortValue: 2
            integerValue: 3
            longValue: 4
            blobValue: "blob"
            renamedValue: "name"
        }
    }
    {
        id: "AwsJson10LeastWholeNumbers"
        documentation: "The least numbers of each width are written in full."
        tags: ["own"]
        protocol: awsJson1_0
        method: "POST"
        uri: "/"
        headers: { "Content-Type": "application/x-amz-json-1.0", "X-Amz-Target": "JsonRpc10.SimpleScalarProperties" }
        body: """
            {
                "byteValue": -128,
                "shortValue": -32768,
                "integerValue": -2147483648,
                "longValue": -9223372036854775808
            }"""
        bodyMediaType: "application/json"
        params: { byteValue: -128, shortValue: -32768, integerValue: -2147483648, longValue: -9223372036854775808 }
    }
    {
        id: "AwsJson10TextsWithEscapes"
        documentation: "A text with quotation marks, backslashes, control characters and letters of other scripts."
        tags: ["own"]
        protocol: awsJson1_0
        method: "POST"
        uri: "/"
        headers: { "Content-Type": "application/x-amz-json-1.0", "X-Amz-Target": "JsonRpc10.SimpleScalarProperties" }
        body: """
            { "stringValue": "say \\"\\\\\\" \\n\\t\\u0001 \\u00e9 \\u00df 😹" }"""
        bodyMediaType: "application/json"
        params: { stringValue: "say \"\\\" \n\t\u0001 é ß 😹" }
    }
])

apply SimpleScalarProperties @httpResponseTests([
    {
        id: "AwsJson10SimpleScalarProperties"
        documentation: "Simple values stand under the names of their members."
        tags: ["own"]
        protocol: awsJson1_0
        code: 200
        headers: { "Content-Type": "application/x-amz-json-1.0" }
        body: """
            {
                "stringValue": "",
                "trueBooleanValue": true,
                "falseBooleanValue": false,
                "byteValue": 127,
                "shortValue": 32767,
                "integerValue": 2147483647,
                "longValue": 9223372036854775807,
                "blobValue": ""
            }"""
        bodyMediaType: "application/json"
        params: {
            stringValue: ""
            trueBooleanValue: true
            falseBooleanValue: false
            byteValue: 127
            shortValue: 32767
            integerValue: 2147483647
            longValue: 9223372036854775807
            blobValue: ""
        }
    }
])

// Unions

operation JsonUnions {
    input: UnionInputOutput
    output: UnionInputOutput
}

structure UnionInputOutput {
    contents: MyUnion
}

union MyUnion {
    stringValue: String
    booleanValue: Boolean
    numberValue: Integer
    blobValue: Blob
    timestampValue: Timestamp
    enumValue: FooEnum
    intEnumValue: IntegerEnum
    listValue: StringList
    mapValue: StringMap
    structureValue: GreetingStruct
}

enum FooEnum {
    FOO = "Foo"
    BAZ = "Baz"
    BAR = "Bar"
    ONE = "1"
    ZERO = "0"
}

intEnum IntegerEnum {
    A = 1
    B = 2
    C = 3
}

list StringList {
    member: String
}

map StringMap {
    key: String
    value: String
}

structure GreetingStruct {
    hi: String
}

apply JsonUnions @httpRequestTests([
    {
        id: "AwsJson10SerializeStringUnionValue"
        documentation: "A union is an object with the one member that is set: a string."
        protocol: awsJson1_0
        method: "POST"
        uri: "/"
        headers: { "Content-Type": "application/x-amz-json-1.0", "X-Amz-Target": "JsonRpc10.JsonUnions" }
        body: """
            { "contents": { "stringValue": "foo" } }"""
        bodyMediaType: "application/json"
        params: { contents: { stringValue: "foo" } }
    }
    {
        id: "AwsJson10SerializeBooleanUnionValue"
        documentation: "A boolean in a union."
        protocol: awsJson1_0
        method: "POST"
        uri: "/"
        headers: { "Content-Type": "application/x-amz-json-1.0", "X-Amz-Target": "JsonRpc10.JsonUnions" }
        body: """
            { "contents": { "booleanValue": true } }"""
        bodyMediaType: "application/json"
        params: { contents: { booleanValue: true } }
    }
    {
        id: "AwsJson10SerializeNumberUnionValue"
        documentation: "A number in a union."
        protocol: awsJson1_0
        method: "POST"
        uri: "/"
        headers: { "Content-Type": "application/x-amz-json-1.0", "X-Amz-Target": "JsonRpc10.JsonUnions" }
        body: """
            { "contents": { "numberValue": 1 } }"""
        bodyMediaType: "application/json"
        params: { contents: { numberValue: 1 } }
    }
    {
        id: "AwsJson10SerializeBlobUnionValue"
        documentation: "A blob in a union is base64 text."
        protocol: awsJson1_0
        method: "POST"
        uri: "/"
        headers: { "Content-Type": "application/x-amz-json-1.0", "X-Amz-Target": "JsonRpc10.JsonUnions" }
        body: """
            { "contents": { "blobValue": "Zm9v" } }"""
        bodyMediaType: "application/json"
        params: { contents: { blobValue: "foo" } }
    }
    {
        id: "AwsJson10SerializeTimestampUnionValue"
        documentation: "A timestamp in a union is a number of seconds."
        protocol: awsJson1_0
        method: "POST"
        uri: "/"
        headers: { "Content-Type": "application/x-amz-json-1.0", "X-Amz-Target": "JsonRpc10.JsonUnions" }
        body: """
            { "contents": { "timestampValue": 1398796238 } }"""
        bodyMediaType: "application/json"
        params: { contents: { timestampValue: 1398796238 } }
    }
    {
        id: "AwsJson10SerializeEnumUnionValue"
        documentation: "An enum in a union is its value, not its member's name."
        protocol: awsJson1_0
        method: "POST"
        uri: "/"
        headers: { "Content-Type": "application/x-amz-json-1.0", "X-Amz-Target": "JsonRpc10.JsonUnions" }
        body: """
            { "contents": { "enumValue": "Foo" } }"""
        bodyMediaType: "application/json"
        params: { contents: { enumValue: "Foo" } }
    }
    {
        id: "AwsJson10SerializeIntEnumUnionValue"
        documentation: "An intEnum in a union is its number."
        protocol: awsJson1_0
        method: "POST"
        uri: "/"
        headers: { "Content-Type": "application/x-amz-json-1.0", "X-Amz-Target": "JsonRpc10.JsonUnions" }
        body: """
            { "contents": { "intEnumValue": 1 } }"""
        bodyMediaType: "application/json"
        params: { contents: { intEnumValue: 1 } }
    }
    {
        id: "AwsJson10SerializeListUnionValue"
        documentation: "A list in a union."
        protocol: awsJson1_0
        method: "POST"
        uri: "/"
        headers: { "Content-Type": "application/x-amz-json-1.0", "X-Amz-Target": "JsonRpc10.JsonUnions" }
        body: """
            { "contents": { "listValue": ["foo", "bar"] } }"""
        bodyMediaType: "application/json"
        params: { contents: { listValue: ["foo", "bar"] } }
    }
    {
        id: "AwsJson10SerializeMapUnionValue"
        documentation: "A map in a union."
        protocol: awsJson1_0
        method: "POST"
        uri: "/"
        headers: { "Content-Type": "application/x-amz-json-1.0", "X-Amz-Target": "JsonRpc10.JsonUnions" }
        body: """
            { "contents": { "mapValue": { "foo": "bar", "spam": "eggs" } } }"""
        bodyMediaType: "application/json"
        params: { contents: { mapValue: { foo: "bar", spam: "eggs" } } }
    }
    {
        id: "AwsJson10SerializeStructureUnionValue"
        documentation: "A structure in a union."
        protocol: awsJson1_0
        method: "POST"
        uri: "/"
        headers: { "Content-Type": "application/x-amz-json-1.0", "X-Amz-Target": "JsonRpc10.JsonUnions" }
        body: """
            { "contents": { "structureValue": { "hi": "hello" } } }"""
        bodyMediaType: "application/json"
        params: { contents: { structureValue: { hi: "hello" } } }
    }
])

apply JsonUnions @httpResponseTests([
    {
        id: "AwsJson10DeserializeStringUnionValue"
        documentation: "A string in a union."
        protocol: awsJson1_0
        code: 200
        headers: { "Content-Type": "application/x-amz-json-1.0" }
        body: """
            { "contents": { "stringValue": "foo" } }"""
        bodyMediaType: "application/json"
        params: { contents: { stringValue: "foo" } }
    }
    {
        id: "AwsJson10DeserializeBooleanUnionValue"
        documentation: "A boolean in a union."
        protocol: awsJson1_0
        code: 200
        headers: { "Content-Type": "application/x-amz-json-1.0" }
        body: """
            { "contents": { "booleanValue": true } }"""
        bodyMediaType: "application/json"
        params: { contents: { booleanValue: true } }
    }
    {
        id: "AwsJson10DeserializeNumberUnionValue"
        documentation: "A number in a union."
        protocol: awsJson1_0
        code: 200
        headers: { "Content-Type": "application/x-amz-json-1.0" }
        body: """
            { "contents": { "numberValue": 1 } }"""
        bodyMediaType: "application/json"
        params: { contents: { numberValue: 1 } }
    }
    {
        id: "AwsJson10DeserializeBlobUnionValue"
        documentation: "A blob in a union."
        protocol: awsJson1_0
        code: 200
        headers: { "Content-Type": "application/x-amz-json-1.0" }
        body: """
            { "contents": { "blobValue": "Zm9v" } }"""
        bodyMediaType: "application/json"
        params: { contents: { blobValue: "foo" } }
    }
    {
        id: "AwsJson10DeserializeTimestampUnionValue"
        documentation: "A timestamp in a union."
        protocol: awsJson1_0
        code: 200
        headers: { "Content-Type": "application/x-amz-json-1.0" }
        body: """
            { "contents": { "timestampValue": 1398796238 } }"""
        bodyMediaType: "application/json"
        params: { contents: { timestampValue: 1398796238 } }
    }
    {
        id: "AwsJson10DeserializeEnumUnionValue"
        documentation: "An enum in a union."
        protocol: awsJson1_0
        code: 200
        headers: { "Content-Type": "application/x-amz-json-1.0" }
        body: """
            { "contents": { "enumValue": "Foo" } }"""
        bodyMediaType: "application/json"
        params: { contents: { enumValue: "Foo" } }
    }
    {
        id: "AwsJson10DeserializeIntEnumUnionValue"
        documentation: "An intEnum in a union."
        protocol: awsJson1_0
        code: 200
        headers: { "Content-Type": "application/x-amz-json-1.0" }
        body: """
            { "contents": { "intEnumValue": 1 } }"""
        bodyMediaType: "application/json"
        params: { contents: { intEnumValue: 1 } }
    }
    {
        id: "AwsJson10DeserializeListUnionValue"
        documentation: "A list in a union."
        protocol: awsJson1_0
        code: 200
        headers: { "Content-Type": "application/x-amz-json-1.0" }
        body: """
            { "contents": { "listValue": ["foo", "bar"] } }"""
        bodyMediaType: "application/json"
        params: { contents: { listValue: ["foo", "bar"] } }
    }
    {
        id: "AwsJson10DeserializeMapUnionValue"
        documentation: "A map in a union."
        protocol: awsJson1_0
        code: 200
        headers: { "Content-Type": "application/x-amz-json-1.0" }
        body: """
            { "contents": { "mapValue": { "foo": "bar", "spam": "eggs" } } }"""
        bodyMediaType: "application/json"
        params: { contents: { mapValue: { foo: "bar", spam: "eggs" } } }
    }
    {
        id: "AwsJson10DeserializeStructureUnionValue"
        documentation: "A structure in a union."
        protocol: awsJson1_0
        code: 200
        headers: { "Content-Type": "application/x-amz-json-1.0" }
        body: """
            { "contents": { "structureValue": { "hi": "hello" } } }"""
        bodyMediaType: "application/json"
        params: { contents: { structureValue: { hi: "hello" } } }
    }
])

// Errors

/// Answers with a greeting, or with one of three errors.
operation GreetingWithErrors {
    input := {
        greeting: String
    }

    output := {
        greeting: String
    }

    errors: [
        ComplexError
        FooError
        InvalidGreeting
    ]
}

apply GreetingWithErrors @httpResponseTests([
    {
        id: "AwsJson10GreetingWithErrors"
        documentation: "An output of an operation that has errors names no type."
        tags: ["own"]
        protocol: awsJson1_0
        code: 200
        headers: { "Content-Type": "application/x-amz-json-1.0" }
        forbidHeaders: ["X-Amzn-Errortype"]
        body: """
            { "greeting": "Hello" }"""
        bodyMediaType: "application/json"
        params: { greeting: "Hello" }
    }
])

/// The client's fault.
@error("client")
structure InvalidGreeting {
    Message: String
}

apply InvalidGreeting @httpResponseTests([
    {
        id: "AwsJson10InvalidGreetingError"
        documentation: "A client's error has the status 400 and names its shape's whole id."
        protocol: awsJson1_0
        code: 400
        headers: { "Content-Type": "application/x-amz-json-1.0" }
        body: """
            { "__type": "aws.protocoltests.json10#InvalidGreeting", "Message": "Hi" }"""
        bodyMediaType: "application/json"
        params: { Message: "Hi" }
    }
])

/// The service's fault, with no members.
@error("server")
structure FooError {}

apply FooError @httpResponseTests([
    {
        id: "AwsJson10FooErrorWithDunderTypeAndNamespace"
        documentation: "A server's error has the status 500. The body's __type is the shape's whole id."
        protocol: awsJson1_0
        code: 500
        headers: { "Content-Type": "application/x-amz-json-1.0" }
        body: """
            { "__type": "aws.protocoltests.json10#FooError" }"""
        bodyMediaType: "application/json"
        params: {}
    }
])

/// An error with members of its own.
@error("client")
structure ComplexError {
    TopLevel: String
    Nested: ComplexNestedErrorData
}

structure ComplexNestedErrorData {
    Foo: String
}

apply ComplexError @httpResponseTests([
    {
        id: "AwsJson10ComplexError"
        documentation: "The members of an error stand beside its __type."
        protocol: awsJson1_0
        code: 400
        headers: { "Content-Type": "application/x-amz-json-1.0" }
        body: """
            {
                "__type": "aws.protocoltests.json10#ComplexError",
                "TopLevel": "Top level",
                "Nested": { "Foo": "bar" }
            }"""
        bodyMediaType: "application/json"
        params: { TopLevel: "Top level", Nested: { Foo: "bar" } }
    }
    {
        id: "AwsJson10EmptyComplexError"
        documentation: "An error of which no member is set has its __type alone."
        protocol: awsJson1_0
        code: 400
        headers: { "Content-Type": "application/x-amz-json-1.0" }
        body: """
            { "__type": "aws.protocoltests.json10#ComplexError" }"""
        bodyMediaType: "application/json"
        params: {}
    }
])
