$version: "2.0"

// AWS restJson1 (Smithy 2.0, "httpPayload trait"): one member that is the whole body.
namespace aws.protocoltests.restjson.payloads

use aws.protocols#restJson1
use smithy.test#httpRequestTests
use smithy.test#httpResponseTests

@restJson1
service RestJson {
    version: "2019-12-16"
    operations: [
        HttpEnumPayload
        HttpPayloadTraits
        HttpPayloadTraitsWithMediaType
        HttpPayloadWithDefaults
        HttpPayloadWithStructure
        HttpPayloadWithUnion
        HttpStringPayload
    ]
}

// Bytes

@http(method: "POST", uri: "/HttpPayloadTraits")
operation HttpPayloadTraits {
    input: HttpPayloadTraitsInputOutput
    output: HttpPayloadTraitsInputOutput
}

structure HttpPayloadTraitsInputOutput {
    @httpHeader("X-Foo")
    foo: String

    @httpPayload
    blob: Blob
}

apply HttpPayloadTraits @httpRequestTests([
    {
        id: "RestJsonHttpPayloadTraitsWithBlob"
        documentation: "A blob is the body as it is."
        protocol: restJson1
        method: "POST"
        uri: "/HttpPayloadTraits"
        headers: { "Content-Type": "application/octet-stream", "X-Foo": "Foo" }
        requireHeaders: ["Content-Length"]
        body: "blobby blob blob"
        bodyMediaType: "application/octet-stream"
        params: { foo: "Foo", blob: "blobby blob blob" }
    }
    {
        id: "RestJsonHttpPayloadTraitsWithNoBlobBody"
        documentation: "A payload that is absent is an empty body."
        protocol: restJson1
        method: "POST"
        uri: "/HttpPayloadTraits"
        headers: { "X-Foo": "Foo" }
        forbidHeaders: ["Content-Type"]
        body: ""
        params: { foo: "Foo" }
    }
])

apply HttpPayloadTraits @httpResponseTests([
    {
        id: "RestJsonHttpPayloadTraitsWithBlob"
        documentation: "A blob is the body as it is."
        protocol: restJson1
        code: 200
        headers: { "Content-Type": "application/octet-stream", "X-Foo": "Foo" }
        body: "blobby blob blob"
        bodyMediaType: "application/octet-stream"
        params: { foo: "Foo", blob: "blobby blob blob" }
    }
    {
        id: "RestJsonHttpPayloadTraitsWithNoBlobBody"
        documentation: "A payload that is absent is an empty body."
        protocol: restJson1
        code: 200
        headers: { "X-Foo": "Foo" }
        forbidHeaders: ["Content-Type"]
        body: ""
        params: { foo: "Foo" }
    }
])

@http(method: "POST", uri: "/HttpPayloadTraitsWithMediaType")
operation HttpPayloadTraitsWithMediaType {
    input: HttpPayloadTraitsWithMediaTypeInputOutput
    output: HttpPayloadTraitsWithMediaTypeInputOutput
}

structure HttpPayloadTraitsWithMediaTypeInputOutput {
    @httpHeader("X-Foo")
    foo: String

    @httpPayload
    blob: TextPlainBlob
}

@mediaType("text/plain")
blob TextPlainBlob

apply HttpPayloadTraitsWithMediaType @httpRequestTests([
    {
        id: "RestJsonHttpPayloadTraitsWithMediaTypeWithBlob"
        documentation: "The content type is the blob's media type."
        protocol: restJson1
        method: "POST"
        uri: "/HttpPayloadTraitsWithMediaType"
        headers: { "Content-Type": "text/plain", "X-Foo": "Foo" }
        requireHeaders: ["Content-Length"]
        body: "blobby blob blob"
        bodyMediaType: "text/plain"
        params: { foo: "Foo", blob: "blobby blob blob" }
    }
])

apply HttpPayloadTraitsWithMediaType @httpResponseTests([
    {
        id: "RestJsonHttpPayloadTraitsWithMediaTypeWithBlob"
        documentation: "The content type is the blob's media type."
        protocol: restJson1
        code: 200
        headers: { "Content-Type": "text/plain", "X-Foo": "Foo" }
        body: "blobby blob blob"
        bodyMediaType: "text/plain"
        params: { foo: "Foo", blob: "blobby blob blob" }
    }
])

// Texts

@http(method: "POST", uri: "/EnumPayload")
operation HttpEnumPayload {
    input: EnumPayloadInput
    output: EnumPayloadInput
}

structure EnumPayloadInput {
    @httpPayload
    payload: StringEnum
}

enum StringEnum {
    V = "enumvalue"
}

apply HttpEnumPayload @httpRequestTests([
    {
        id: "RestJsonEnumPayloadRequest"
        documentation: "An enum's value is the body as it is."
        protocol: restJson1
        method: "POST"
        uri: "/EnumPayload"
        headers: { "Content-Type": "text/plain" }
        body: "enumvalue"
        params: { payload: "enumvalue" }
    }
])

apply HttpEnumPayload @httpResponseTests([
    {
        id: "RestJsonEnumPayloadResponse"
        documentation: "An enum's value is the body as it is."
        protocol: restJson1
        code: 200
        headers: { "Content-Type": "text/plain" }
        body: "enumvalue"
        params: { payload: "enumvalue" }
    }
])

@http(method: "POST", uri: "/StringPayload")
operation HttpStringPayload {
    input: StringPayloadInput
    output: StringPayloadInput
}

structure StringPayloadInput {
    @httpPayload
    payload: String
}

apply HttpStringPayload @httpRequestTests([
    {
        id: "RestJsonStringPayloadRequest"
        documentation: "A string is the body as it is, without quotation marks."
        protocol: restJson1
        method: "POST"
        uri: "/StringPayload"
        headers: { "Content-Type": "text/plain" }
        requireHeaders: ["Content-Length"]
        body: "rawstring"
        params: { payload: "rawstring" }
    }
    {
        id: "RestJsonStringPayloadOfJson"
        documentation: "A string that is a JSON text is the body as it is, and so are letters of other scripts."
        tags: ["own"]
        protocol: restJson1
        method: "POST"
        uri: "/StringPayload"
        headers: { "Content-Type": "text/plain" }
        body: " { \"é\": null }\n"
        params: { payload: " { \"é\": null }\n" }
    }
])

apply HttpStringPayload @httpResponseTests([
    {
        id: "RestJsonStringPayloadResponse"
        documentation: "A string is the body as it is."
        protocol: restJson1
        code: 200
        headers: { "Content-Type": "text/plain" }
        body: "rawstring"
        params: { payload: "rawstring" }
    }
])

// Structures and unions

@idempotent
@http(method: "PUT", uri: "/HttpPayloadWithStructure")
operation HttpPayloadWithStructure {
    input: HttpPayloadWithStructureInputOutput
    output: HttpPayloadWithStructureInputOutput
}

structure HttpPayloadWithStructureInputOutput {
    @httpPayload
    nested: NestedPayload
}

structure NestedPayload {
    greeting: String

    name: String

    /// A binding counts at the top alone, so this stands in the body.
    @httpHeader("X-Other")
    other: String

    @jsonName("last")
    until: Timestamp
}

apply HttpPayloadWithStructure @httpRequestTests([
    {
        id: "RestJsonHttpPayloadWithStructure"
        documentation: "A structure is the body as a JSON object."
        protocol: restJson1
        method: "PUT"
        uri: "/HttpPayloadWithStructure"
        headers: { "Content-Type": "application/json" }
        requireHeaders: ["Content-Length"]
        body: """
            {
                "greeting": "hello",
                "name": "Phreddy"
            }"""
        bodyMediaType: "application/json"
        params: {
            nested: { greeting: "hello", name: "Phreddy" }
        }
    }
    {
        id: "RestJsonHttpPayloadWithNestedBindings"
        documentation: "In a payload JSON names count, and bindings say nothing."
        tags: ["own"]
        protocol: restJson1
        method: "PUT"
        uri: "/HttpPayloadWithStructure"
        headers: { "Content-Type": "application/json" }
        forbidHeaders: ["X-Other"]
        body: """
            { "other": "in the body", "last": 1.5 }"""
        bodyMediaType: "application/json"
        params: {
            nested: { other: "in the body", until: 1.5 }
        }
    }
    {
        id: "RestJsonHttpPayloadWithEmptyStructure"
        documentation: "A structure of which no member is set is an empty object, which isn't an absent payload."
        tags: ["own"]
        protocol: restJson1
        method: "PUT"
        uri: "/HttpPayloadWithStructure"
        headers: { "Content-Type": "application/json" }
        body: "{}"
        bodyMediaType: "application/json"
        params: { nested: {} }
    }
])

apply HttpPayloadWithStructure @httpResponseTests([
    {
        id: "RestJsonHttpPayloadWithStructure"
        documentation: "A structure is the body as a JSON object."
        protocol: restJson1
        code: 200
        headers: { "Content-Type": "application/json" }
        body: """
            {
                "greeting": "hello",
                "name": "Phreddy"
            }"""
        bodyMediaType: "application/json"
        params: {
            nested: { greeting: "hello", name: "Phreddy" }
        }
    }
])

@idempotent
@http(method: "PUT", uri: "/HttpPayloadWithUnion")
operation HttpPayloadWithUnion {
    input: HttpPayloadWithUnionInputOutput
    output: HttpPayloadWithUnionInputOutput
}

structure HttpPayloadWithUnionInputOutput {
    @httpPayload
    nested: UnionPayload
}

union UnionPayload {
    greeting: String
}

apply HttpPayloadWithUnion @httpRequestTests([
    {
        id: "RestJsonHttpPayloadWithUnion"
        documentation: "A union is the body as a JSON object."
        protocol: restJson1
        method: "PUT"
        uri: "/HttpPayloadWithUnion"
        headers: { "Content-Type": "application/json" }
        requireHeaders: ["Content-Length"]
        body: """
            { "greeting": "hello" }"""
        bodyMediaType: "application/json"
        params: {
            nested: { greeting: "hello" }
        }
    }
    {
        id: "RestJsonHttpPayloadWithUnsetUnion"
        documentation: "A union that is absent is an empty body."
        protocol: restJson1
        method: "PUT"
        uri: "/HttpPayloadWithUnion"
        forbidHeaders: ["Content-Type"]
        body: ""
        params: {}
    }
])

apply HttpPayloadWithUnion @httpResponseTests([
    {
        id: "RestJsonHttpPayloadWithUnion"
        documentation: "A union is the body as a JSON object."
        protocol: restJson1
        code: 200
        headers: { "Content-Type": "application/json" }
        body: """
            { "greeting": "hello" }"""
        bodyMediaType: "application/json"
        params: {
            nested: { greeting: "hello" }
        }
    }
    {
        id: "RestJsonHttpPayloadWithUnsetUnion"
        documentation: "A union that is absent is an empty body, of the length 0."
        protocol: restJson1
        code: 200
        headers: { "Content-Length": "0" }
        forbidHeaders: ["Content-Type"]
        body: ""
        params: {}
    }
])

@http(method: "POST", uri: "/HttpPayloadWithDefaults")
operation HttpPayloadWithDefaults {
    input := {
        @httpPayload
        settings: Settings
    }
}

structure Settings {
    level: Integer = 3
    names: Names = []
}

list Names {
    member: String
}

apply HttpPayloadWithDefaults @httpRequestTests([
    {
        id: "RestJsonHttpPayloadWithDefaults"
        documentation: "The defaults of a payload's members are written."
        tags: ["own"]
        protocol: restJson1
        method: "POST"
        uri: "/HttpPayloadWithDefaults"
        headers: { "Content-Type": "application/json" }
        body: """
            { "level": 3, "names": [] }"""
        bodyMediaType: "application/json"
        params: { settings: {} }
    }
])
