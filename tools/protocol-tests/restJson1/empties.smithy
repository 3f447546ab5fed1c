$version: "2.0"

// AWS restJson1 (Smithy 2.0, "AWS restJson1 protocol"): when a message has a body, and which content type it has then.
namespace aws.protocoltests.restjson.empties

use aws.protocols#restJson1
use smithy.test#httpRequestTests
use smithy.test#httpResponseTests

@restJson1
service RestJson {
    version: "2019-12-16"
    operations: [
        EmptyInputAndEmptyOutput
        NoInputAndNoOutput
        NoInputAndOutput
        TestBodyStructure
        TestGetNoInputNoPayload
        TestGetNoPayload
        TestPayloadBlob
        TestPayloadStructure
        TestPostNoInputNoPayload
        TestPostNoPayload
        UnitInputAndOutput
    ]
}

// Without members

@http(method: "POST", uri: "/NoInputAndNoOutput")
operation NoInputAndNoOutput {}

apply NoInputAndNoOutput @httpRequestTests([
    {
        id: "RestJsonNoInputAndNoOutput"
        documentation: "A request without an input has no body and no content type."
        protocol: restJson1
        method: "POST"
        uri: "/NoInputAndNoOutput"
        headers: { "Content-Length": "0" }
        forbidHeaders: ["Content-Type"]
        body: ""
        params: {}
    }
])

apply NoInputAndNoOutput @httpResponseTests([
    {
        id: "RestJsonNoInputAndNoOutput"
        documentation: "A response without an output has no body and no content type."
        protocol: restJson1
        code: 200
        headers: { "Content-Length": "0" }
        forbidHeaders: ["Content-Type"]
        body: ""
        params: {}
    }
])

@http(method: "POST", uri: "/NoInputAndOutputOutput")
operation NoInputAndOutput {
    output := {}
}

apply NoInputAndOutput @httpRequestTests([
    {
        id: "RestJsonNoInputAndOutput"
        documentation: "A request without an input has no body, whatever the output is."
        protocol: restJson1
        method: "POST"
        uri: "/NoInputAndOutputOutput"
        forbidHeaders: ["Content-Type"]
        body: ""
        params: {}
    }
])

apply NoInputAndOutput @httpResponseTests([
    {
        id: "RestJsonNoInputAndOutputNoPayload"
        documentation: "An output without members has no body: none of its members could stand there."
        protocol: restJson1
        code: 200
        forbidHeaders: ["Content-Type"]
        body: ""
        params: {}
    }
])

@http(method: "POST", uri: "/EmptyInputAndEmptyOutput")
operation EmptyInputAndEmptyOutput {
    input := {}
    output := {}
}

apply EmptyInputAndEmptyOutput @httpRequestTests([
    {
        id: "RestJsonEmptyInputAndEmptyOutput"
        documentation: "An input without members has no body."
        protocol: restJson1
        method: "POST"
        uri: "/EmptyInputAndEmptyOutput"
        forbidHeaders: ["Content-Type"]
        body: ""
        params: {}
    }
])

apply EmptyInputAndEmptyOutput @httpResponseTests([
    {
        id: "RestJsonEmptyInputAndEmptyOutput"
        documentation: "An output without members has no body."
        protocol: restJson1
        code: 200
        forbidHeaders: ["Content-Type"]
        body: ""
        params: {}
    }
])

@http(method: "POST", uri: "/UnitInputAndOutput")
operation UnitInputAndOutput {
    input: Unit
    output: Unit
}

apply UnitInputAndOutput @httpRequestTests([
    {
        id: "RestJsonUnitInputAndOutput"
        documentation: "The unit type as an input is no input."
        protocol: restJson1
        method: "POST"
        uri: "/UnitInputAndOutput"
        forbidHeaders: ["Content-Type"]
        body: ""
        params: {}
    }
])

apply UnitInputAndOutput @httpResponseTests([
    {
        id: "RestJsonUnitInputAndOutputNoOutput"
        documentation: "The unit type as an output is no output."
        protocol: restJson1
        code: 200
        forbidHeaders: ["Content-Type"]
        body: ""
        params: {}
    }
])

// Content types

/// A structure in the document.
@idempotent
@http(method: "POST", uri: "/body")
operation TestBodyStructure {
    input: TestBodyStructureInputOutput
    output: TestBodyStructureInputOutput
}

structure TestBodyStructureInputOutput {
    @httpHeader("x-amz-test-id")
    testId: String

    testConfig: TestConfig
}

structure TestConfig {
    timeout: Integer
}

apply TestBodyStructure @httpRequestTests([
    {
        id: "RestJsonTestBodyStructure"
        documentation: "A member in the document."
        protocol: restJson1
        method: "POST"
        uri: "/body"
        headers: { "Content-Type": "application/json" }
        requireHeaders: ["Content-Length"]
        forbidHeaders: ["x-amz-test-id"]
        body: """
            { "testConfig": { "timeout": 10 } }"""
        bodyMediaType: "application/json"
        params: {
            testConfig: { timeout: 10 }
        }
    }
    {
        id: "RestJsonHttpWithEmptyBody"
        documentation: "A document of which no member is set is an empty JSON object."
        protocol: restJson1
        method: "POST"
        uri: "/body"
        headers: { "Content-Type": "application/json" }
        requireHeaders: ["Content-Length"]
        body: "{}"
        bodyMediaType: "application/json"
        params: {}
    }
    {
        id: "RestJsonHttpWithHeaderAndEmptyBody"
        documentation: "The document is there also where only a field is set."
        tags: ["own"]
        protocol: restJson1
        method: "POST"
        uri: "/body"
        headers: { "Content-Type": "application/json", "x-amz-test-id": "t-12345" }
        body: "{}"
        bodyMediaType: "application/json"
        params: { testId: "t-12345" }
    }
])

apply TestBodyStructure @httpResponseTests([
    {
        id: "RestJsonTestBodyStructureResponse"
        documentation: "A member in the document beside a field."
        tags: ["own"]
        protocol: restJson1
        code: 200
        headers: { "Content-Type": "application/json", "x-amz-test-id": "t-12345" }
        body: """
            { "testConfig": {} }"""
        bodyMediaType: "application/json"
        params: {
            testId: "t-12345"
            testConfig: {}
        }
    }
])

/// A structure that is the body.
@idempotent
@http(method: "POST", uri: "/payload")
operation TestPayloadStructure {
    input: TestPayloadStructureInputOutput
    output: TestPayloadStructureInputOutput
}

structure TestPayloadStructureInputOutput {
    @httpHeader("x-amz-test-id")
    testId: String

    @httpPayload
    payloadConfig: PayloadConfig
}

structure PayloadConfig {
    data: Integer
}

apply TestPayloadStructure @httpRequestTests([
    {
        id: "RestJsonHttpWithEmptyStructurePayload"
        documentation: "A payload that is absent is an empty body."
        protocol: restJson1
        method: "POST"
        uri: "/payload"
        forbidHeaders: ["Content-Type"]
        requireHeaders: ["Content-Length"]
        body: ""
        params: {}
    }
    {
        id: "RestJsonTestPayloadStructure"
        documentation: "A structure that is the body."
        protocol: restJson1
        method: "POST"
        uri: "/payload"
        headers: { "Content-Type": "application/json" }
        requireHeaders: ["Content-Length"]
        body: """
            { "data": 25 }"""
        bodyMediaType: "application/json"
        params: {
            payloadConfig: { data: 25 }
        }
    }
    {
        id: "RestJsonHttpWithHeadersButNoPayload"
        documentation: "A field without a payload."
        protocol: restJson1
        method: "POST"
        uri: "/payload"
        headers: { "X-Amz-Test-Id": "t-12345" }
        forbidHeaders: ["Content-Type"]
        body: ""
        params: { testId: "t-12345" }
    }
])

apply TestPayloadStructure @httpResponseTests([
    {
        id: "RestJsonTestPayloadStructureResponse"
        documentation: "A structure that is the body, beside a field."
        tags: ["own"]
        protocol: restJson1
        code: 200
        headers: { "Content-Type": "application/json", "X-Amz-Test-Id": "t-12345", "Content-Length": "11" }
        body: """
            {"data":25}"""
        bodyMediaType: "application/json"
        params: {
            testId: "t-12345"
            payloadConfig: { data: 25 }
        }
    }
])

/// A blob that is the body.
@idempotent
@http(method: "POST", uri: "/blob_payload")
operation TestPayloadBlob {
    input := {
        @httpPayload
        data: Blob
    }
}

apply TestPayloadBlob @httpRequestTests([
    {
        id: "RestJsonHttpWithEmptyBlobPayload"
        documentation: "A blob that is absent is an empty body."
        protocol: restJson1
        method: "POST"
        uri: "/blob_payload"
        forbidHeaders: ["Content-Type"]
        body: ""
        params: {}
    }
    {
        id: "RestJsonTestPayloadBlobWithoutBoundContentType"
        documentation: "A blob without a media type is of the type of all bytes."
        tags: ["changed"]
        protocol: restJson1
        method: "POST"
        uri: "/blob_payload"
        headers: { "Content-Type": "application/octet-stream", "Content-Length": "4" }
        body: "1234"
        bodyMediaType: "application/octet-stream"
        params: { data: "1234" }
    }
])

/// No member can stand in the body.
@readonly
@http(method: "GET", uri: "/no_payload")
operation TestGetNoPayload {
    input: TestNoPayloadInputOutput
    output: TestNoPayloadInputOutput
}

/// No member can stand in the body.
@http(method: "POST", uri: "/no_payload")
operation TestPostNoPayload {
    input: TestNoPayloadInputOutput
    output: TestNoPayloadInputOutput
}

structure TestNoPayloadInputOutput {
    @httpHeader("X-Amz-Test-Id")
    testId: String
}

apply TestGetNoPayload @httpRequestTests([
    {
        id: "RestJsonHttpGetWithNoModeledBody"
        documentation: "Where no member stands in the body there is none, and no content type."
        protocol: restJson1
        method: "GET"
        uri: "/no_payload"
        forbidHeaders: ["Content-Type"]
        body: ""
        params: {}
    }
    {
        id: "RestJsonHttpGetWithHeaderMemberNoModeledBody"
        documentation: "A field changes nothing of this."
        protocol: restJson1
        method: "GET"
        uri: "/no_payload"
        headers: { "X-Amz-Test-Id": "t-12345" }
        forbidHeaders: ["Content-Type"]
        body: ""
        params: { testId: "t-12345" }
    }
])

apply TestPostNoPayload @httpRequestTests([
    {
        id: "RestJsonHttpPostWithNoModeledBody"
        documentation: "Where no member stands in the body there is none, whatever the method is."
        protocol: restJson1
        method: "POST"
        uri: "/no_payload"
        forbidHeaders: ["Content-Type"]
        body: ""
        params: {}
    }
    {
        id: "RestJsonHttpPostWithHeaderMemberNoModeledBody"
        documentation: "A field changes nothing of this."
        protocol: restJson1
        method: "POST"
        uri: "/no_payload"
        headers: { "X-Amz-Test-Id": "t-12345" }
        forbidHeaders: ["Content-Type"]
        body: ""
        params: { testId: "t-12345" }
    }
])

@readonly
@http(method: "GET", uri: "/no_input_no_payload")
operation TestGetNoInputNoPayload {
    output: TestNoPayloadInputOutput
}

@http(method: "POST", uri: "/no_input_no_payload")
operation TestPostNoInputNoPayload {
    output: TestNoPayloadInputOutput
}

apply TestGetNoInputNoPayload @httpRequestTests([
    {
        id: "RestJsonHttpGetWithNoInput"
        documentation: "A GET without an input has no body and no content type."
        protocol: restJson1
        method: "GET"
        uri: "/no_input_no_payload"
        forbidHeaders: ["Content-Type"]
        body: ""
        params: {}
    }
])

apply TestPostNoInputNoPayload @httpRequestTests([
    {
        id: "RestJsonHttpPostWithNoInput"
        documentation: "A POST without an input has no body and no content type."
        protocol: restJson1
        method: "POST"
        uri: "/no_input_no_payload"
        forbidHeaders: ["Content-Type"]
        body: ""
        params: {}
    }
])
