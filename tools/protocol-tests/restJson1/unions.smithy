$version: "2.0"

// AWS restJson1 (Smithy 2.0, "AWS restJson1 protocol", "jsonName trait"): unions in a JSON document.
namespace aws.protocoltests.restjson.unions

use aws.protocols#restJson1
use smithy.test#httpRequestTests
use smithy.test#httpResponseTests

@restJson1
service RestJson {
    version: "2019-12-16"
    operations: [
        JsonUnions
        PostPlayerAction
        PostUnionWithJsonName
    ]
}

@idempotent
@http(method: "PUT", uri: "/JsonUnions")
operation JsonUnions {
    input: UnionInputOutput
    output: UnionInputOutput
}

structure UnionInputOutput {
    contents: MyUnion
}

union MyUnion {
    stringValue: String
    booleanValue: Boolean
    numberValue: Integer
    blobValue: Blob
    timestampValue: Timestamp
    enumValue: FooEnum
    listValue: StringList
    mapValue: StringMap
    structureValue: GreetingStruct
}

enum FooEnum {
    FOO = "Foo"
    BAZ = "Baz"
    BAR = "Bar"
    ONE = "1"
    ZERO = "0"
}

list StringList {
    member: String
}

map StringMap {
    key: String
    value: String
}

structure GreetingStruct {
    hi: String
}

apply JsonUnions @httpRequestTests([
    {
        id: "RestJsonSerializeStringUnionValue"
        documentation: "A union is an object with the one member that is set: a string."
        protocol: restJson1
        method: "PUT"
        uri: "/JsonUnions"
        headers: { "Content-Type": "application/json" }
        body: """
            { "contents": { "stringValue": "foo" } }"""
        bodyMediaType: "application/json"
        params: { contents: { stringValue: "foo" } }
    }
    {
        id: "RestJsonSerializeBooleanUnionValue"
        documentation: "A boolean in a union."
        protocol: restJson1
        method: "PUT"
        uri: "/JsonUnions"
        headers: { "Content-Type": "application/json" }
        body: """
            { "contents": { "booleanValue": true } }"""
        bodyMediaType: "application/json"
        params: { contents: { booleanValue: true } }
    }
    {
        id: "RestJsonSerializeNumberUnionValue"
        documentation: "A number in a union."
        protocol: restJson1
        method: "PUT"
        uri: "/JsonUnions"
        headers: { "Content-Type": "application/json" }
        body: """
            { "contents": { "numberValue": 1 } }"""
        bodyMediaType: "application/json"
        params: { contents: { numberValue: 1 } }
    }
    {
        id: "RestJsonSerializeBlobUnionValue"
        documentation: "A blob in a union is base64 text."
        protocol: restJson1
        method: "PUT"
        uri: "/JsonUnions"
        headers: { "Content-Type": "application/json" }
        body: """
            { "contents": { "blobValue": "Zm9v" } }"""
        bodyMediaType: "application/json"
        params: { contents: { blobValue: "foo" } }
    }
    {
        id: "RestJsonSerializeTimestampUnionValue"
        documentation: "A timestamp in a union is a number of seconds."
        protocol: restJson1
        method: "PUT"
        uri: "/JsonUnions"
        headers: { "Content-Type": "application/json" }
        body: """
            { "contents": { "timestampValue": 1398796238 } }"""
        bodyMediaType: "application/json"
        params: { contents: { timestampValue: 1398796238 } }
    }
    {
        id: "RestJsonSerializeEnumUnionValue"
        documentation: "An enum in a union is its value."
        protocol: restJson1
        method: "PUT"
        uri: "/JsonUnions"
        headers: { "Content-Type": "application/json" }
        body: """
            { "contents": { "enumValue": "Foo" } }"""
        bodyMediaType: "application/json"
        params: { contents: { enumValue: "Foo" } }
    }
    {
        id: "RestJsonSerializeListUnionValue"
        documentation: "A list in a union."
        protocol: restJson1
        method: "PUT"
        uri: "/JsonUnions"
        headers: { "Content-Type": "application/json" }
        body: """
            { "contents": { "listValue": ["foo", "bar"] } }"""
        bodyMediaType: "application/json"
        params: { contents: { listValue: ["foo", "bar"] } }
    }
    {
        id: "RestJsonSerializeMapUnionValue"
        documentation: "A map in a union."
        protocol: restJson1
        method: "PUT"
        uri: "/JsonUnions"
        headers: { "Content-Type": "application/json" }
        body: """
            { "contents": { "mapValue": { "foo": "bar", "spam": "eggs" } } }"""
        bodyMediaType: "application/json"
        params: { contents: { mapValue: { foo: "bar", spam: "eggs" } } }
    }
    {
        id: "RestJsonSerializeStructureUnionValue"
        documentation: "A structure in a union."
        protocol: restJson1
        method: "PUT"
        uri: "/JsonUnions"
        headers: { "Content-Type": "application/json" }
        body: """
            { "contents": { "structureValue": { "hi": "hello" } } }"""
        bodyMediaType: "application/json"
        params: { contents: { structureValue: { hi: "hello" } } }
    }
])

apply JsonUnions @httpResponseTests([
    {
        id: "RestJsonDeserializeStringUnionValue"
        documentation: "A string in a union."
        protocol: restJson1
        code: 200
        headers: { "Content-Type": "application/json" }
        body: """
            { "contents": { "stringValue": "foo" } }"""
        bodyMediaType: "application/json"
        params: { contents: { stringValue: "foo" } }
    }
    {
        id: "RestJsonDeserializeBooleanUnionValue"
        documentation: "A boolean in a union."
        protocol: restJson1
        code: 200
        headers: { "Content-Type": "application/json" }
        body: """
            { "contents": { "booleanValue": true } }"""
        bodyMediaType: "application/json"
        params: { contents: { booleanValue: true } }
    }
    {
        id: "RestJsonDeserializeNumberUnionValue"
        documentation: "A number in a union."
        protocol: restJson1
        code: 200
        headers: { "Content-Type": "application/json" }
        body: """
            { "contents": { "numberValue": 1 } }"""
        bodyMediaType: "application/json"
        params: { contents: { numberValue: 1 } }
    }
    {
        id: "RestJsonDeserializeBlobUnionValue"
        documentation: "A blob in a union."
        protocol: restJson1
        code: 200
        headers: { "Content-Type": "application/json" }
        body: """
            { "contents": { "blobValue": "Zm9v" } }"""
        bodyMediaType: "application/json"
        params: { contents: { blobValue: "foo" } }
    }
    {
        id: "RestJsonDeserializeTimestampUnionValue"
        documentation: "A timestamp in a union."
        protocol: restJson1
        code: 200
        headers: { "Content-Type": "application/json" }
        body: """
            { "contents": { "timestampValue": 1398796238 } }"""
        bodyMediaType: "application/json"
        params: { contents: { timestampValue: 1398796238 } }
    }
    {
        id: "RestJsonDeserializeEnumUnionValue"
        documentation: "An enum in a union."
        protocol: restJson1
        code: 200
        headers: { "Content-Type": "application/json" }
        body: """
            { "contents": { "enumValue": "Foo" } }"""
        bodyMediaType: "application/json"
        params: { contents: { enumValue: "Foo" } }
    }
    {
        id: "RestJsonDeserializeListUnionValue"
        documentation: "A list in a union."
        protocol: restJson1
        code: 200
        headers: { "Content-Type": "application/json" }
        body: """
            { "contents": { "listValue": ["foo", "bar"] } }"""
        bodyMediaType: "application/json"
        params: { contents: { listValue: ["foo", "bar"] } }
    }
    {
        id: "RestJsonDeserializeMapUnionValue"
        documentation: "A map in a union."
        protocol: restJson1
        code: 200
        headers: { "Content-Type": "application/json" }
        body: """
            { "contents": { "mapValue": { "foo": "bar", "spam": "eggs" } } }"""
        bodyMediaType: "application/json"
        params: { contents: { mapValue: { foo: "bar", spam: "eggs" } } }
    }
    {
        id: "RestJsonDeserializeStructureUnionValue"
        documentation: "A structure in a union."
        protocol: restJson1
        code: 200
        headers: { "Content-Type": "application/json" }
        body: """
            { "contents": { "structureValue": { "hi": "hello" } } }"""
        bodyMediaType: "application/json"
        params: { contents: { structureValue: { hi: "hello" } } }
    }
])

/// A union with a member of the unit type.
@http(method: "POST", uri: "/PostPlayerAction")
operation PostPlayerAction {
    input := {
        action: PlayerAction
    }

    output := {
        @required
        action: PlayerAction
    }
}

union PlayerAction {
    /// Says nothing but that it is set.
    quit: Unit
}

apply PostPlayerAction @httpRequestTests([
    {
        id: "RestJsonInputUnionWithUnitMember"
        documentation: "A member of the unit type is an empty object."
        protocol: restJson1
        method: "POST"
        uri: "/PostPlayerAction"
        headers: { "Content-Type": "application/json" }
        body: """
            { "action": { "quit": {} } }"""
        bodyMediaType: "application/json"
        params: { action: { quit: {} } }
    }
])

apply PostPlayerAction @httpResponseTests([
    {
        id: "RestJsonOutputUnionWithUnitMember"
        documentation: "A member of the unit type is an empty object."
        protocol: restJson1
        code: 200
        headers: { "Content-Type": "application/json" }
        body: """
            { "action": { "quit": {} } }"""
        bodyMediaType: "application/json"
        params: { action: { quit: {} } }
    }
])

/// A union whose members have JSON names.
@http(method: "POST", uri: "/PostUnionWithJsonName")
operation PostUnionWithJsonName {
    input := {
        value: UnionWithJsonName
    }

    output := {
        @required
        value: UnionWithJsonName
    }
}

union UnionWithJsonName {
    @jsonName("FOO")
    foo: String

    bar: String

    @jsonName("_baz")
    baz: String
}

apply PostUnionWithJsonName @httpRequestTests([
    {
        id: "PostUnionWithJsonNameRequest1"
        documentation: "A JSON name in capitals."
        protocol: restJson1
        method: "POST"
        uri: "/PostUnionWithJsonName"
        headers: { "Content-Type": "application/json" }
        body: """
            { "value": { "FOO": "hi" } }"""
        bodyMediaType: "application/json"
        params: { value: { foo: "hi" } }
    }
    {
        id: "PostUnionWithJsonNameRequest2"
        documentation: "A JSON name that begins with a low line."
        protocol: restJson1
        method: "POST"
        uri: "/PostUnionWithJsonName"
        headers: { "Content-Type": "application/json" }
        body: """
            { "value": { "_baz": "hi" } }"""
        bodyMediaType: "application/json"
        params: { value: { baz: "hi" } }
    }
    {
        id: "PostUnionWithJsonNameRequest3"
        documentation: "A member without a JSON name."
        protocol: restJson1
        method: "POST"
        uri: "/PostUnionWithJsonName"
        headers: { "Content-Type": "application/json" }
        body: """
            { "value": { "bar": "hi" } }"""
        bodyMediaType: "application/json"
        params: { value: { bar: "hi" } }
    }
])

apply PostUnionWithJsonName @httpResponseTests([
    {
        id: "PostUnionWithJsonNameResponse1"
        documentation: "A JSON name in capitals."
        protocol: restJson1
        code: 200
        headers: { "Content-Type": "application/json" }
        body: """
            { "value": { "FOO": "hi" } }"""
        bodyMediaType: "application/json"
        params: { value: { foo: "hi" } }
    }
    {
        id: "PostUnionWithJsonNameResponse2"
        documentation: "A JSON name that begins with a low line."
        protocol: restJson1
        code: 200
        headers: { "Content-Type": "application/json" }
        body: """
            { "value": { "_baz": "hi" } }"""
        bodyMediaType: "application/json"
        params: { value: { baz: "hi" } }
    }
    {
        id: "PostUnionWithJsonNameResponse3"
        documentation: "A member without a JSON name."
        protocol: restJson1
        code: 200
        headers: { "Content-Type": "application/json" }
        body: """
            { "value": { "bar": "hi" } }"""
        bodyMediaType: "application/json"
        params: { value: { bar: "hi" } }
    }
])
