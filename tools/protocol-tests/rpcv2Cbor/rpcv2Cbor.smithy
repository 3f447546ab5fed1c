$version: "2.0"

// Smithy RPC v2 CBOR (Smithy 2.0, "Smithy RPC v2 CBOR protocol"): messages without members, values, unions, timestamps, errors. The comment
// over a body says it in the diagnostic notation of RFC 8949, section 8; the body is base64 text.
namespace smithy.protocoltests.rpcv2Cbor

use smithy.protocols#rpcv2Cbor
use smithy.test#httpRequestTests
use smithy.test#httpResponseTests

@rpcv2Cbor
service RpcV2Protocol {
    version: "2020-07-14"
    operations: [
        EmptyInputOutput
        GreetingWithErrors
        NoInputOutput
        OptionalInputOutput
        RecursiveShapes
        RpcV2CborTimestamps
        RpcV2CborUnions
        SimpleScalarProperties
    ]
}

// Messages without members

operation NoInputOutput {}

apply NoInputOutput @httpRequestTests([
    {
        id: "no_input"
        documentation: "A request without an input has no body and no content type."
        protocol: rpcv2Cbor
        method: "POST"
        uri: "/service/RpcV2Protocol/operation/NoInputOutput"
        headers: { "smithy-protocol": "rpc-v2-cbor", "Accept": "application/cbor" }
        forbidHeaders: ["Content-Type", "X-Amz-Target"]
        body: ""
        params: {}
    }
])

apply NoInputOutput @httpResponseTests([
    {
        id: "no_output"
        documentation: "A response without an output has no body and no content type."
        protocol: rpcv2Cbor
        code: 200
        headers: { "smithy-protocol": "rpc-v2-cbor" }
        forbidHeaders: ["Content-Type", "Accept"]
        body: ""
        params: {}
    }
])

operation EmptyInputOutput {
    input := {}
    output := {}
}

apply EmptyInputOutput @httpRequestTests([
    {
        id: "empty_input"
        documentation: "An input without members is an empty map."
        protocol: rpcv2Cbor
        method: "POST"
        uri: "/service/RpcV2Protocol/operation/EmptyInputOutput"
        headers: { "smithy-protocol": "rpc-v2-cbor", "Accept": "application/cbor", "Content-Type": "application/cbor" }
        requireHeaders: ["Content-Length"]
        forbidHeaders: ["X-Amz-Target"]
        // {}
        body: "oA=="
        bodyMediaType: "application/cbor"
        params: {}
    }
])

apply EmptyInputOutput @httpResponseTests([
    {
        id: "empty_output"
        documentation: "An output without members is an empty map."
        protocol: rpcv2Cbor
        code: 200
        headers: { "smithy-protocol": "rpc-v2-cbor", "Content-Type": "application/cbor" }
        // {}
        body: "oA=="
        bodyMediaType: "application/cbor"
        params: {}
    }
])

operation OptionalInputOutput {
    input: SimpleStructure
    output: SimpleStructure
}

structure SimpleStructure {
    value: String
}

apply OptionalInputOutput @httpRequestTests([
    {
        id: "optional_input"
        documentation: "An input of which no member is set is an empty map."
        protocol: rpcv2Cbor
        method: "POST"
        uri: "/service/RpcV2Protocol/operation/OptionalInputOutput"
        headers: { "smithy-protocol": "rpc-v2-cbor", "Accept": "application/cbor", "Content-Type": "application/cbor" }
        forbidHeaders: ["X-Amz-Target"]
        // {}
        body: "oA=="
        bodyMediaType: "application/cbor"
        params: {}
    }
])

apply OptionalInputOutput @httpResponseTests([
    {
        id: "optional_output"
        documentation: "An output of which no member is set is an empty map."
        protocol: rpcv2Cbor
        code: 200
        headers: { "smithy-protocol": "rpc-v2-cbor", "Content-Type": "application/cbor" }
        // {}
        body: "oA=="
        bodyMediaType: "application/cbor"
        params: {}
    }
])

// Values

operation SimpleScalarProperties {
    input: SimpleScalarStructure
    output: SimpleScalarStructure
}

structure SimpleScalarStructure {
    trueBooleanValue: Boolean

    falseBooleanValue: Boolean

    byteValue: Byte

    shortValue: Short

    integerValue: Integer

    longValue: Long

    stringValue: String

    blobValue: Blob

    @jsonName("otherName")
    renamedValue: String
}

apply SimpleScalarProperties @httpRequestTests([
    {
        id: "RpcV2CborSimpleScalarPropertiesWithoutFloats"
        documentation: "Simple values stand under the names of their members; a blob is a byte string."
        tags: ["changed"]
        protocol: rpcv2Cbor
        method: "POST"
        uri: "/service/RpcV2Protocol/operation/SimpleScalarProperties"
        headers: { "smithy-protocol": "rpc-v2-cbor", "Accept": "application/cbor", "Content-Type": "application/cbor" }
        requireHeaders: ["Content-Length"]
        // {"trueBooleanValue": true, "falseBooleanValue": false, "byteValue": 5, "shortValue": 9898, "integerValue": 256,
        // "longValue": 9873, "stringValue": "simple", "blobValue": h'666f6f'}
        body: """
            qHB0cnVlQm9vbGVhblZhbHVl9XFmYWxzZUJvb2xlYW5WYWx1ZfRpYnl0ZVZhbHVlBWpzaG9ydFZhbHVlGSaqbGludGVnZXJWYWx1\
            ZRkBAGlsb25nVmFsdWUZJpFrc3RyaW5nVmFsdWVmc2ltcGxlaWJsb2JWYWx1ZUNmb28="""
        bodyMediaType: "application/cbor"
        params: {
            trueBooleanValue: true
            falseBooleanValue: false
            byteValue: 5
            shortValue: 9898
            integerValue: 256
            longValue: 9873
            stringValue: "simple"
            blobValue: "foo"
        }
    }
    {
        id: "RpcV2CborClientDoesntSerializeNullStructureValues"
        documentation: "A member that is null is absent, and isn't written."
        protocol: rpcv2Cbor
        method: "POST"
        uri: "/service/RpcV2Protocol/operation/SimpleScalarProperties"
        headers: { "smithy-protocol": "rpc-v2-cbor", "Accept": "application/cbor", "Content-Type": "application/cbor" }
        // {}
        body: "oA=="
        bodyMediaType: "application/cbor"
        params: { stringValue: null }
    }
    {
        id: "RpcV2CborLeastWholeNumbers"
        documentation: "The least numbers of each width, and the name of a member that has another one in JSON."
        tags: ["own"]
        protocol: rpcv2Cbor
        method: "POST"
        uri: "/service/RpcV2Protocol/operation/SimpleScalarProperties"
        headers: { "smithy-protocol": "rpc-v2-cbor", "Accept": "application/cbor", "Content-Type": "application/cbor" }
        // {"byteValue": -128, "shortValue": -32768, "integerValue": -2147483648, "longValue": -9223372036854775808,
        // "renamedValue": ""}
        body: "pWlieXRlVmFsdWU4f2pzaG9ydFZhbHVlOX//bGludGVnZXJWYWx1ZTp/////aWxvbmdWYWx1ZTt//////////2xyZW5hbWVkVmFsdWVg"
        bodyMediaType: "application/cbor"
        params: {
            byteValue: -128
            shortValue: -32768
            integerValue: -2147483648
            longValue: -9223372036854775808
            renamedValue: ""
        }
    }
    {
        id: "RpcV2CborWholeNumbersOfEachLength"
        documentation: "Numbers on both sides of the lengths that heads of items have."
        tags: ["own"]
        protocol: rpcv2Cbor
        method: "POST"
        uri: "/service/RpcV2Protocol/operation/SimpleScalarProperties"
        headers: { "smithy-protocol": "rpc-v2-cbor", "Accept": "application/cbor", "Content-Type": "application/cbor" }
        // {"byteValue": 23, "shortValue": 24, "integerValue": 65536, "longValue": 4294967296, "stringValue": "é😹"}
        body: "pWlieXRlVmFsdWUXanNob3J0VmFsdWUYGGxpbnRlZ2VyVmFsdWUaAAEAAGlsb25nVmFsdWUbAAAAAQAAAABrc3RyaW5nVmFsdWVmw6nwn5i5"
        bodyMediaType: "application/cbor"
        params: { byteValue: 23, shortValue: 24, integerValue: 65536, longValue: 4294967296, stringValue: "é😹" }
    }
])

apply SimpleScalarProperties @httpResponseTests([
    {
        id: "RpcV2CborSimpleScalarPropertiesWithoutFloats"
        documentation: "Simple values stand under the names of their members."
        tags: ["changed"]
        protocol: rpcv2Cbor
        code: 200
        headers: { "smithy-protocol": "rpc-v2-cbor", "Content-Type": "application/cbor" }
        forbidHeaders: ["Accept"]
        // {"trueBooleanValue": true, "falseBooleanValue": false, "byteValue": 5, "shortValue": 9898, "integerValue": 256,
        // "longValue": 9873, "stringValue": "simple", "blobValue": h'666f6f'}
        body: """
            qHB0cnVlQm9vbGVhblZhbHVl9XFmYWxzZUJvb2xlYW5WYWx1ZfRpYnl0ZVZhbHVlBWpzaG9ydFZhbHVlGSaqbGludGVnZXJWYWx1\
            ZRkBAGlsb25nVmFsdWUZJpFrc3RyaW5nVmFsdWVmc2ltcGxlaWJsb2JWYWx1ZUNmb28="""
        bodyMediaType: "application/cbor"
        params: {
            trueBooleanValue: true
            falseBooleanValue: false
            byteValue: 5
            shortValue: 9898
            integerValue: 256
            longValue: 9873
            stringValue: "simple"
            blobValue: "foo"
        }
    }
    {
        id: "RpcV2CborGreatestWholeNumbers"
        documentation: "The greatest numbers of each width, and an empty blob."
        tags: ["own"]
        protocol: rpcv2Cbor
        code: 200
        headers: { "smithy-protocol": "rpc-v2-cbor", "Content-Type": "application/cbor" }
        // {"byteValue": 127, "shortValue": 32767, "integerValue": 2147483647, "longValue": 9223372036854775807, "blobValue": h''}
        body: "pWlieXRlVmFsdWUYf2pzaG9ydFZhbHVlGX//bGludGVnZXJWYWx1ZRp/////aWxvbmdWYWx1ZRt//////////2libG9iVmFsdWVA"
        bodyMediaType: "application/cbor"
        params: {
            byteValue: 127
            shortValue: 32767
            integerValue: 2147483647
            longValue: 9223372036854775807
            blobValue: ""
        }
    }
])

operation RecursiveShapes {
    input: RecursiveShapesInputOutput
    output: RecursiveShapesInputOutput
}

structure RecursiveShapesInputOutput {
    nested: RecursiveShapesInputOutputNested1
}

structure RecursiveShapesInputOutputNested1 {
    foo: String
    nested: RecursiveShapesInputOutputNested2
}

structure RecursiveShapesInputOutputNested2 {
    bar: String
    recursiveMember: RecursiveShapesInputOutputNested1
}

apply RecursiveShapes @httpRequestTests([
    {
        id: "RpcV2CborRecursiveShapes"
        documentation: "Two structures that hold each other."
        protocol: rpcv2Cbor
        method: "POST"
        uri: "/service/RpcV2Protocol/operation/RecursiveShapes"
        headers: { "smithy-protocol": "rpc-v2-cbor", "Accept": "application/cbor", "Content-Type": "application/cbor" }
        // {"nested": {"foo": "Foo1", "nested": {"bar": "Bar1", "recursiveMember": {"foo": "Foo2", "nested": {"bar": "Bar2"}}}}}
        body: "oWZuZXN0ZWSiY2Zvb2RGb28xZm5lc3RlZKJjYmFyZEJhcjFvcmVjdXJzaXZlTWVtYmVyomNmb29kRm9vMmZuZXN0ZWShY2JhcmRCYXIy"
        bodyMediaType: "application/cbor"
        params: {
            nested: {
                foo: "Foo1"
                nested: {
                    bar: "Bar1"
                    recursiveMember: {
                        foo: "Foo2"
                        nested: { bar: "Bar2" }
                    }
                }
            }
        }
    }
])

apply RecursiveShapes @httpResponseTests([
    {
        id: "RpcV2CborRecursiveShapes"
        documentation: "Two structures that hold each other."
        protocol: rpcv2Cbor
        code: 200
        headers: { "smithy-protocol": "rpc-v2-cbor", "Content-Type": "application/cbor" }
        // {"nested": {"foo": "Foo1", "nested": {"bar": "Bar1", "recursiveMember": {"foo": "Foo2", "nested": {"bar": "Bar2"}}}}}
        body: "oWZuZXN0ZWSiY2Zvb2RGb28xZm5lc3RlZKJjYmFyZEJhcjFvcmVjdXJzaXZlTWVtYmVyomNmb29kRm9vMmZuZXN0ZWShY2JhcmRCYXIy"
        bodyMediaType: "application/cbor"
        params: {
            nested: {
                foo: "Foo1"
                nested: {
                    bar: "Bar1"
                    recursiveMember: {
                        foo: "Foo2"
                        nested: { bar: "Bar2" }
                    }
                }
            }
        }
    }
])

operation RpcV2CborUnions {
    input: UnionInputOutput
    output: UnionInputOutput
}

structure UnionInputOutput {
    contents: MyUnion
}

union MyUnion {
    stringValue: String
    blobValue: Blob
    timestampValue: Timestamp
    listValue: StringList
    structureValue: SimpleStructure
    unitValue: Unit
}

list StringList {
    member: String
}

apply RpcV2CborUnions @httpRequestTests([
    {
        id: "RpcV2CborSerializeStringUnionValue"
        documentation: "A union is a map with the one member that is set: a string."
        tags: ["own"]
        protocol: rpcv2Cbor
        method: "POST"
        uri: "/service/RpcV2Protocol/operation/RpcV2CborUnions"
        headers: { "smithy-protocol": "rpc-v2-cbor", "Accept": "application/cbor", "Content-Type": "application/cbor" }
        // {"contents": {"stringValue": "foo"}}
        body: "oWhjb250ZW50c6Frc3RyaW5nVmFsdWVjZm9v"
        bodyMediaType: "application/cbor"
        params: { contents: { stringValue: "foo" } }
    }
    {
        id: "RpcV2CborSerializeBlobUnionValue"
        documentation: "A blob in a union."
        tags: ["own"]
        protocol: rpcv2Cbor
        method: "POST"
        uri: "/service/RpcV2Protocol/operation/RpcV2CborUnions"
        headers: { "smithy-protocol": "rpc-v2-cbor", "Accept": "application/cbor", "Content-Type": "application/cbor" }
        // {"contents": {"blobValue": h'666f6f'}}
        body: "oWhjb250ZW50c6FpYmxvYlZhbHVlQ2Zvbw=="
        bodyMediaType: "application/cbor"
        params: { contents: { blobValue: "foo" } }
    }
    {
        id: "RpcV2CborSerializeTimestampUnionValue"
        documentation: "A timestamp in a union is a tagged number of seconds."
        tags: ["own"]
        protocol: rpcv2Cbor
        method: "POST"
        uri: "/service/RpcV2Protocol/operation/RpcV2CborUnions"
        headers: { "smithy-protocol": "rpc-v2-cbor", "Accept": "application/cbor", "Content-Type": "application/cbor" }
        // {"contents": {"timestampValue": 1(1398796238)}}
        body: "oWhjb250ZW50c6FudGltZXN0YW1wVmFsdWXBGlNf784="
        bodyMediaType: "application/cbor"
        params: { contents: { timestampValue: 1398796238 } }
    }
])

apply RpcV2CborUnions @httpResponseTests([
    {
        id: "RpcV2CborDeserializeListUnionValue"
        documentation: "A list in a union."
        tags: ["own"]
        protocol: rpcv2Cbor
        code: 200
        headers: { "smithy-protocol": "rpc-v2-cbor", "Content-Type": "application/cbor" }
        // {"contents": {"listValue": ["foo", "bar"]}}
        body: "oWhjb250ZW50c6FpbGlzdFZhbHVlgmNmb29jYmFy"
        bodyMediaType: "application/cbor"
        params: { contents: { listValue: ["foo", "bar"] } }
    }
    {
        id: "RpcV2CborDeserializeStructureUnionValue"
        documentation: "A structure in a union."
        tags: ["own"]
        protocol: rpcv2Cbor
        code: 200
        headers: { "smithy-protocol": "rpc-v2-cbor", "Content-Type": "application/cbor" }
        // {"contents": {"structureValue": {"value": "hi"}}}
        body: "oWhjb250ZW50c6Fuc3RydWN0dXJlVmFsdWWhZXZhbHVlYmhp"
        bodyMediaType: "application/cbor"
        params: { contents: { structureValue: { value: "hi" } } }
    }
    {
        id: "RpcV2CborDeserializeUnitUnionValue"
        documentation: "A member of the unit type is an empty map."
        tags: ["own"]
        protocol: rpcv2Cbor
        code: 200
        headers: { "smithy-protocol": "rpc-v2-cbor", "Content-Type": "application/cbor" }
        // {"contents": {"unitValue": {}}}
        body: "oWhjb250ZW50c6FpdW5pdFZhbHVloA=="
        bodyMediaType: "application/cbor"
        params: { contents: { unitValue: {} } }
    }
])

operation RpcV2CborTimestamps {
    input: TimestampsInputOutput
    output: TimestampsInputOutput
}

structure TimestampsInputOutput {
    normal: Timestamp

    @timestampFormat("date-time")
    dateTime: Timestamp

    @timestampFormat("http-date")
    httpDate: Timestamp

    @timestampFormat("epoch-seconds")
    epochSeconds: Timestamp
}

apply RpcV2CborTimestamps @httpRequestTests([
    {
        id: "RpcV2CborTimestampsOfEveryFormat"
        documentation: "A timestamp is a number of seconds under tag 1, whatever its format; http-date has none before 1970, CBOR has."
        tags: ["own"]
        protocol: rpcv2Cbor
        method: "POST"
        uri: "/service/RpcV2Protocol/operation/RpcV2CborTimestamps"
        headers: { "smithy-protocol": "rpc-v2-cbor", "Accept": "application/cbor", "Content-Type": "application/cbor" }
        // {"normal": 1(0), "dateTime": 1(1576540098), "httpDate": 1(-1), "epochSeconds": 1(253402300799)}
        body: "pGZub3JtYWzBAGhkYXRlVGltZcEaXfgXwmhodHRwRGF0ZcEgbGVwb2NoU2Vjb25kc8EbAAAAOv/0QX8="
        bodyMediaType: "application/cbor"
        params: { normal: 0, dateTime: 1576540098, httpDate: -1, epochSeconds: 253402300799 }
    }
])

apply RpcV2CborTimestamps @httpResponseTests([
    {
        id: "RpcV2CborTimestampsOfEveryFormat"
        documentation: "A timestamp is a number of seconds under tag 1, whatever its format."
        tags: ["own"]
        protocol: rpcv2Cbor
        code: 200
        headers: { "smithy-protocol": "rpc-v2-cbor", "Content-Type": "application/cbor" }
        // {"normal": 1(1398796238), "dateTime": 1(-62167219200)}
        body: "omZub3JtYWzBGlNf785oZGF0ZVRpbWXBOwAAAA55dHv/"
        bodyMediaType: "application/cbor"
        params: { normal: 1398796238, dateTime: -62167219200 }
    }
])

// Errors

/// Answers with a greeting, or with one of three errors.
operation GreetingWithErrors {
    output := {
        greeting: String
    }

    errors: [
        ComplexError
        FooError
        InvalidGreeting
    ]
}

apply GreetingWithErrors @httpResponseTests([
    {
        id: "RpcV2CborGreetingWithErrors"
        documentation: "An output of an operation that has errors names no type."
        tags: ["own"]
        protocol: rpcv2Cbor
        code: 200
        headers: { "smithy-protocol": "rpc-v2-cbor", "Content-Type": "application/cbor" }
        // {"greeting": "Hello"}
        body: "oWhncmVldGluZ2VIZWxsbw=="
        bodyMediaType: "application/cbor"
        params: { greeting: "Hello" }
    }
])

/// The client's fault.
@error("client")
structure InvalidGreeting {
    Message: String
}

apply InvalidGreeting @httpResponseTests([
    {
        id: "RpcV2CborInvalidGreetingError"
        documentation: "A client's error has the status 400 and names its shape's whole id."
        protocol: rpcv2Cbor
        code: 400
        headers: { "smithy-protocol": "rpc-v2-cbor", "Content-Type": "application/cbor" }
        // {"__type": "smithy.protocoltests.rpcv2Cbor#InvalidGreeting", "Message": "Hi"}
        body: "omZfX3R5cGV4LnNtaXRoeS5wcm90b2NvbHRlc3RzLnJwY3YyQ2JvciNJbnZhbGlkR3JlZXRpbmdnTWVzc2FnZWJIaQ=="
        bodyMediaType: "application/cbor"
        params: { Message: "Hi" }
    }
])

/// The service's fault, with no members; a status of HTTP bindings says nothing here.
@error("server")
@httpError(503)
structure FooError {}

apply FooError @httpResponseTests([
    {
        id: "RpcV2CborServerError"
        documentation: "A server's error has the status 500, whatever httpError says."
        tags: ["own"]
        protocol: rpcv2Cbor
        code: 500
        headers: { "smithy-protocol": "rpc-v2-cbor", "Content-Type": "application/cbor" }
        forbidHeaders: ["X-Amzn-Errortype"]
        // {"__type": "smithy.protocoltests.rpcv2Cbor#FooError"}
        body: "oWZfX3R5cGV4J3NtaXRoeS5wcm90b2NvbHRlc3RzLnJwY3YyQ2JvciNGb29FcnJvcg=="
        bodyMediaType: "application/cbor"
        params: {}
    }
])

/// An error with members of its own.
@error("client")
structure ComplexError {
    TopLevel: String
    Nested: ComplexNestedErrorData
}

structure ComplexNestedErrorData {
    Foo: String
}

apply ComplexError @httpResponseTests([
    {
        id: "RpcV2CborComplexError"
        documentation: "The members of an error stand beside its __type."
        protocol: rpcv2Cbor
        code: 400
        headers: { "smithy-protocol": "rpc-v2-cbor", "Content-Type": "application/cbor" }
        // {"__type": "smithy.protocoltests.rpcv2Cbor#ComplexError", "TopLevel": "Top level", "Nested": {"Foo": "bar"}}
        body: """
            o2ZfX3R5cGV4K3NtaXRoeS5wcm90b2NvbHRlc3RzLnJwY3YyQ2JvciNDb21wbGV4RXJyb3JoVG9wTGV2ZWxpVG9wIGxldmVsZk5l\
            c3RlZKFjRm9vY2Jhcg=="""
        bodyMediaType: "application/cbor"
        params: { TopLevel: "Top level", Nested: { Foo: "bar" } }
    }
    {
        id: "RpcV2CborEmptyComplexError"
        documentation: "An error of which no member is set has its __type alone."
        protocol: rpcv2Cbor
        code: 400
        headers: { "smithy-protocol": "rpc-v2-cbor", "Content-Type": "application/cbor" }
        // {"__type": "smithy.protocoltests.rpcv2Cbor#ComplexError"}
        body: "oWZfX3R5cGV4K3NtaXRoeS5wcm90b2NvbHRlc3RzLnJwY3YyQ2JvciNDb21wbGV4RXJyb3I="
        bodyMediaType: "application/cbor"
        params: {}
    }
])
