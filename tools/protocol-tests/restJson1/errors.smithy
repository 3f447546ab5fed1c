$version: "2.0"

// AWS restJson1 (Smithy 2.0, "error trait", "httpError trait", "httpResponseCode trait"): errors, and the status of a response.
namespace aws.protocoltests.restjson

use aws.protocols#restJson1
use smithy.test#httpRequestTests
use smithy.test#httpResponseTests

@restJson1
service RestJson {
    version: "2019-12-16"
    operations: [
        Accepted
        GreetingWithErrors
        HttpResponseCode
        NothingToSay
        ResponseCodeBesideDocument
        ResponseCodeHttpFallback
        ResponseCodeRequired
    ]
    errors: [ThrottlingError]
}

// Errors

/// Answers with a greeting in a field, or with one of four errors; the service may answer with one more.
@idempotent
@http(method: "PUT", uri: "/GreetingWithErrors")
operation GreetingWithErrors {
    output := {
        @httpHeader("X-Greeting")
        greeting: String
    }

    errors: [
        ComplexError
        FooError
        InvalidGreeting
        RawError
    ]
}

apply GreetingWithErrors @httpRequestTests([
    {
        id: "RestJsonGreetingWithErrorsRequest"
        documentation: "Errors change nothing of a request."
        tags: ["own"]
        protocol: restJson1
        method: "PUT"
        uri: "/GreetingWithErrors"
        forbidHeaders: ["Content-Type", "X-Amzn-Errortype"]
        body: ""
        params: {}
    }
])

apply GreetingWithErrors @httpResponseTests([
    {
        id: "RestJsonGreetingWithErrorsNoPayload"
        documentation: "An output of an operation that has errors names no error. No member stands in the body, so there is none."
        protocol: restJson1
        code: 200
        headers: { "X-Greeting": "Hello" }
        forbidHeaders: ["X-Amzn-Errortype"]
        body: ""
        params: { greeting: "Hello" }
    }
])

/// The client's fault.
@error("client")
@httpError(400)
structure InvalidGreeting {
    Message: String
}

apply InvalidGreeting @httpResponseTests([
    {
        id: "RestJsonInvalidGreetingError"
        documentation: "An error is named by a field, without its namespace; its members stand in the body."
        protocol: restJson1
        code: 400
        headers: { "Content-Type": "application/json", "X-Amzn-Errortype": "InvalidGreeting" }
        body: """
            { "Message": "Hi" }"""
        bodyMediaType: "application/json"
        params: { Message: "Hi" }
    }
])

/// The service's fault, with no members and no status of its own.
@error("server")
structure FooError {}

apply FooError @httpResponseTests([
    {
        id: "RestJsonFooErrorUsingXAmznErrorType"
        documentation: "A server's error without httpError has the status 500; without members it has no body."
        protocol: restJson1
        code: 500
        headers: { "X-Amzn-Errortype": "FooError" }
        forbidHeaders: ["Content-Type"]
        body: ""
        params: {}
    }
])

/// An error with members in the head and in the body.
@error("client")
@httpError(403)
structure ComplexError {
    @httpHeader("X-Header")
    Header: String

    TopLevel: String

    Nested: ComplexNestedErrorData
}

structure ComplexNestedErrorData {
    @jsonName("Fooooo")
    Foo: String
}

apply ComplexError @httpResponseTests([
    {
        id: "RestJsonComplexErrorWithNoMessage"
        documentation: "An error's members are bound as those of an output, and JSON names count."
        protocol: restJson1
        code: 403
        headers: { "Content-Type": "application/json", "X-Amzn-Errortype": "ComplexError", "X-Header": "Header" }
        body: """
            {
                "TopLevel": "Top level",
                "Nested": { "Fooooo": "bar" }
            }"""
        bodyMediaType: "application/json"
        params: {
            Header: "Header"
            TopLevel: "Top level"
            Nested: { Foo: "bar" }
        }
    }
    {
        id: "RestJsonEmptyComplexErrorWithNoMessage"
        documentation: "An error of which no member is set has an empty JSON object as its body."
        protocol: restJson1
        code: 403
        headers: { "Content-Type": "application/json", "X-Amzn-Errortype": "ComplexError" }
        forbidHeaders: ["X-Header"]
        body: "{}"
        bodyMediaType: "application/json"
        params: {}
    }
])

/// An error whose body is a text.
@error("server")
@httpError(503)
structure RawError {
    @httpPayload
    reason: String

    @httpPrefixHeaders("x-detail-")
    details: Details

    @httpHeader("Retry-After")
    retryAfter: Integer
}

map Details {
    key: String
    value: String
}

apply RawError @httpResponseTests([
    {
        id: "RestJsonErrorWithRawPayload"
        documentation: "An error with a text as its body, a field and fields of a map."
        tags: ["own"]
        protocol: restJson1
        code: 503
        headers: {
            "Content-Type": "text/plain"
            "X-Amzn-Errortype": "RawError"
            "Retry-After": "30"
            "X-Detail-zone": "a"
            "X-Detail-rack": "12"
        }
        body: "too much to do"
        params: {
            reason: "too much to do"
            details: { zone: "a", rack: "12" }
            retryAfter: 30
        }
    }
])

/// The service's own error, which every operation has.
@error("client")
@httpError(429)
structure ThrottlingError {
    @required
    message: String
}

apply ThrottlingError @httpResponseTests([
    {
        id: "RestJsonErrorOfTheService"
        documentation: "An error of the service is one of each operation."
        tags: ["own"]
        protocol: restJson1
        code: 429
        headers: { "Content-Type": "application/json", "X-Amzn-Errortype": "ThrottlingError" }
        body: """
            { "message": "slowly" }"""
        bodyMediaType: "application/json"
        params: { message: "slowly" }
    }
])

// Status

@idempotent
@http(method: "PUT", uri: "/HttpResponseCode", code: 200)
operation HttpResponseCode {
    output := {
        @httpResponseCode
        Status: Integer
    }
}

apply HttpResponseCode @httpResponseTests([
    {
        id: "RestJsonHttpResponseCodeWithNoPayload"
        documentation: "The status is the member's; there is no body, since no member stands in it."
        protocol: restJson1
        code: 201
        forbidHeaders: ["Content-Type"]
        body: ""
        params: { Status: 201 }
    }
    {
        id: "RestJsonHttpResponseCodeWithoutContent"
        documentation: "A response of the status 204 has no body and no length."
        tags: ["own"]
        protocol: restJson1
        code: 204
        forbidHeaders: ["Content-Length", "Content-Type"]
        body: ""
        params: { Status: 204 }
    }
])

@readonly
@http(method: "GET", uri: "/responseCodeRequired", code: 200)
operation ResponseCodeRequired {
    output := {
        @required
        @httpResponseCode
        responseCode: Integer
    }
}

apply ResponseCodeRequired @httpResponseTests([
    {
        id: "RestJsonHttpResponseCodeRequiredWithoutBody"
        documentation: "The status is that of a required member."
        tags: ["changed"]
        protocol: restJson1
        code: 201
        forbidHeaders: ["Content-Type"]
        body: ""
        params: { responseCode: 201 }
    }
])

@readonly
@http(method: "GET", uri: "/responseCodeBesideDocument")
operation ResponseCodeBesideDocument {
    output := {
        @required
        @httpResponseCode
        responseCode: Integer

        note: String
    }
}

apply ResponseCodeBesideDocument @httpResponseTests([
    {
        id: "RestJsonHttpResponseCodeBesideDocument"
        documentation: "The member that is the status stands in no document."
        tags: ["own"]
        protocol: restJson1
        code: 206
        headers: { "Content-Type": "application/json" }
        body: """
            { "note": "a part" }"""
        bodyMediaType: "application/json"
        params: { responseCode: 206, note: "a part" }
    }
])

@readonly
@http(method: "GET", uri: "/responseCodeHttpFallback", code: 201)
operation ResponseCodeHttpFallback {
    input := {}
    output := {}
}

apply ResponseCodeHttpFallback @httpResponseTests([
    {
        id: "RestJsonHttpResponseCodeNotSetFallsBackToHttpCodeWithoutBody"
        documentation: "Where no member is bound to it the status is that of the operation."
        tags: ["changed"]
        protocol: restJson1
        code: 201
        forbidHeaders: ["Content-Type"]
        body: ""
        params: {}
    }
])

@http(method: "POST", uri: "/accepted", code: 202)
operation Accepted {
    output := {
        ticket: String
    }
}

apply Accepted @httpResponseTests([
    {
        id: "RestJsonCodeOfTheOperationWithDocument"
        documentation: "The operation's status with a document."
        tags: ["own"]
        protocol: restJson1
        code: 202
        headers: { "Content-Type": "application/json" }
        body: """
            { "ticket": "a1" }"""
        bodyMediaType: "application/json"
        params: { ticket: "a1" }
    }
])

@idempotent
@http(method: "DELETE", uri: "/nothing", code: 204)
operation NothingToSay {
    output := {
        @httpHeader("X-Count")
        count: Integer
    }
}

apply NothingToSay @httpResponseTests([
    {
        id: "RestJsonNoContentWithField"
        documentation: "A response of the status 204 may have fields of members."
        tags: ["own"]
        protocol: restJson1
        code: 204
        headers: { "X-Count": "2" }
        forbidHeaders: ["Content-Length", "Content-Type"]
        body: ""
        params: { count: 2 }
    }
])
