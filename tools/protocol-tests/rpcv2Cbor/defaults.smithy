$version: "2.0"

// Smithy RPC v2 CBOR (Smithy 2.0, "Smithy RPC v2 CBOR protocol", "default trait"): members with defaults. The comment over a body says it
// in the diagnostic notation of RFC 8949, section 8; the body is base64 text.
namespace smithy.protocoltests.rpcv2Cbor.defaults

use smithy.protocols#rpcv2Cbor
use smithy.test#httpRequestTests
use smithy.test#httpResponseTests

@rpcv2Cbor
service RpcV2Protocol {
    version: "2020-07-14"
    operations: [OperationWithDefaults]
}

operation OperationWithDefaults {
    input := {
        defaults: Defaults
        topLevelDefault: String = "hi"
        otherTopLevelDefault: Integer = 0
    }

    output := with [DefaultMembers] {}
}

structure Defaults with [DefaultMembers] {}

@mixin
structure DefaultMembers {
    defaultString: String = "hi"
    defaultBoolean: Boolean = true
    defaultList: TestStringList = []
    defaultTimestamp: Timestamp = 0
    defaultBlob: Blob = "YWJj"
    defaultByte: Byte = 1
    defaultShort: Short = 1
    defaultInteger: Integer = 10
    defaultLong: Long = 100
    defaultMap: TestStringMap = {}
    defaultEnum: TestEnum = "FOO"
    defaultIntEnum: TestIntEnum = 1
    emptyString: String = ""
    falseBoolean: Boolean = false
    emptyBlob: Blob = ""
    zeroByte: Byte = 0
    zeroShort: Short = 0
    zeroInteger: Integer = 0
    zeroLong: Long = 0
}

list TestStringList {
    member: String
}

map TestStringMap {
    key: String
    value: String
}

enum TestEnum {
    FOO
    BAR
    BAZ
}

intEnum TestIntEnum {
    ONE = 1
    TWO = 2
}

apply OperationWithDefaults @httpRequestTests([
    {
        id: "RpcV2CborClientPopulatesDefaultValuesInInputAndTopLevel"
        documentation: "Members that are absent are written with their defaults, below the top and at the top."
        tags: ["changed"]
        protocol: rpcv2Cbor
        method: "POST"
        uri: "/service/RpcV2Protocol/operation/OperationWithDefaults"
        headers: { "smithy-protocol": "rpc-v2-cbor", "Accept": "application/cbor", "Content-Type": "application/cbor" }
        // {"defaults": {"defaultString": "hi", "defaultBoolean": true, "defaultList": [], "defaultTimestamp": 1(0),
        // "defaultBlob": h'616263', "defaultByte": 1, "defaultShort": 1, "defaultInteger": 10, "defaultLong": 100,
        // "defaultMap": {}, "defaultEnum": "FOO", "defaultIntEnum": 1, "emptyString": "", "falseBoolean": false,
        // "emptyBlob": h'', "zeroByte": 0, "zeroShort": 0, "zeroInteger": 0, "zeroLong": 0},
        // "topLevelDefault": "hi", "otherTopLevelDefault": 0}
        body: """
            o2hkZWZhdWx0c7NtZGVmYXVsdFN0cmluZ2JoaW5kZWZhdWx0Qm9vbGVhbvVrZGVmYXVsdExpc3SAcGRlZmF1bHRUaW1lc3RhbXDB\
            AGtkZWZhdWx0QmxvYkNhYmNrZGVmYXVsdEJ5dGUBbGRlZmF1bHRTaG9ydAFuZGVmYXVsdEludGVnZXIKa2RlZmF1bHRMb25nGGRq\
            ZGVmYXVsdE1hcKBrZGVmYXVsdEVudW1jRk9PbmRlZmF1bHRJbnRFbnVtAWtlbXB0eVN0cmluZ2BsZmFsc2VCb29sZWFu9GllbXB0\
            eUJsb2JAaHplcm9CeXRlAGl6ZXJvU2hvcnQAa3plcm9JbnRlZ2VyAGh6ZXJvTG9uZwBvdG9wTGV2ZWxEZWZhdWx0YmhpdG90aGVy\
            VG9wTGV2ZWxEZWZhdWx0AA=="""
        bodyMediaType: "application/cbor"
        params: { defaults: {} }
    }
    {
        id: "RpcV2CborPopulatesTopLevelDefaultValuesInInput"
        documentation: "A structure that is absent stays so; the defaults at the top are written."
        tags: ["own"]
        protocol: rpcv2Cbor
        method: "POST"
        uri: "/service/RpcV2Protocol/operation/OperationWithDefaults"
        headers: { "smithy-protocol": "rpc-v2-cbor", "Accept": "application/cbor", "Content-Type": "application/cbor" }
        // {"topLevelDefault": "hi", "otherTopLevelDefault": 0}
        body: "om90b3BMZXZlbERlZmF1bHRiaGl0b3RoZXJUb3BMZXZlbERlZmF1bHQA"
        bodyMediaType: "application/cbor"
        params: {}
    }
    {
        id: "RpcV2CborClientUsesExplicitlyProvidedValuesInTopLevel"
        documentation: "What is given at the top is written, also where it is the default."
        protocol: rpcv2Cbor
        method: "POST"
        uri: "/service/RpcV2Protocol/operation/OperationWithDefaults"
        headers: { "smithy-protocol": "rpc-v2-cbor", "Accept": "application/cbor", "Content-Type": "application/cbor" }
        // {"topLevelDefault": "hi", "otherTopLevelDefault": 0}
        body: "om90b3BMZXZlbERlZmF1bHRiaGl0b3RoZXJUb3BMZXZlbERlZmF1bHQA"
        bodyMediaType: "application/cbor"
        params: { topLevelDefault: "hi", otherTopLevelDefault: 0 }
    }
])

apply OperationWithDefaults @httpResponseTests([
    {
        id: "RpcV2CborClientIgnoresDefaultValuesIfMemberValuesArePresentInResponse"
        documentation: "What a response has goes before the defaults."
        protocol: rpcv2Cbor
        code: 200
        headers: { "smithy-protocol": "rpc-v2-cbor", "Content-Type": "application/cbor" }
        // {"defaultString": "bye", "defaultBoolean": false, "defaultList": ["a"], "defaultTimestamp": 1(2), "defaultBlob": h'6869',
        // "defaultByte": 2, "defaultShort": 2, "defaultInteger": 20, "defaultLong": 200, "defaultMap": {"name": "Jack"},
        // "defaultEnum": "BAR", "defaultIntEnum": 2, "emptyString": "foo", "falseBoolean": true, "emptyBlob": h'6869',
        // "zeroByte": 1, "zeroShort": 1, "zeroInteger": 1, "zeroLong": 1}
        body: """
            s21kZWZhdWx0U3RyaW5nY2J5ZW5kZWZhdWx0Qm9vbGVhbvRrZGVmYXVsdExpc3SBYWFwZGVmYXVsdFRpbWVzdGFtcMECa2RlZmF1\
            bHRCbG9iQmhpa2RlZmF1bHRCeXRlAmxkZWZhdWx0U2hvcnQCbmRlZmF1bHRJbnRlZ2VyFGtkZWZhdWx0TG9uZxjIamRlZmF1bHRN\
            YXChZG5hbWVkSmFja2tkZWZhdWx0RW51bWNCQVJuZGVmYXVsdEludEVudW0Ca2VtcHR5U3RyaW5nY2Zvb2xmYWxzZUJvb2xlYW71\
            aWVtcHR5QmxvYkJoaWh6ZXJvQnl0ZQFpemVyb1Nob3J0AWt6ZXJvSW50ZWdlcgFoemVyb0xvbmcB"""
        bodyMediaType: "application/cbor"
        params: {
            defaultString: "bye"
            defaultBoolean: false
            defaultList: ["a"]
            defaultTimestamp: 2
            defaultBlob: "hi"
            defaultByte: 2
            defaultShort: 2
            defaultInteger: 20
            defaultLong: 200
            defaultMap: { name: "Jack" }
            defaultEnum: "BAR"
            defaultIntEnum: 2
            emptyString: "foo"
            falseBoolean: true
            emptyBlob: "hi"
            zeroByte: 1
            zeroShort: 1
            zeroInteger: 1
            zeroLong: 1
        }
    }
    {
        id: "RpcV2CborServerPopulatesDefaultsInResponseWhenMissingInParams"
        documentation: "A response has the defaults of the members that aren't given."
        protocol: rpcv2Cbor
        code: 200
        headers: { "smithy-protocol": "rpc-v2-cbor", "Content-Type": "application/cbor" }
        // {"defaultString": "hi", "defaultBoolean": true, "defaultList": [], "defaultTimestamp": 1(0), "defaultBlob": h'616263',
        // "defaultByte": 1, "defaultShort": 1, "defaultInteger": 10, "defaultLong": 100, "defaultMap": {}, "defaultEnum": "FOO",
        // "defaultIntEnum": 1, "emptyString": "", "falseBoolean": false, "emptyBlob": h'', "zeroByte": 0, "zeroShort": 0,
        // "zeroInteger": 0, "zeroLong": 0}
        body: """
            s21kZWZhdWx0U3RyaW5nYmhpbmRlZmF1bHRCb29sZWFu9WtkZWZhdWx0TGlzdIBwZGVmYXVsdFRpbWVzdGFtcMEAa2RlZmF1bHRC\
            bG9iQ2FiY2tkZWZhdWx0Qnl0ZQFsZGVmYXVsdFNob3J0AW5kZWZhdWx0SW50ZWdlcgprZGVmYXVsdExvbmcYZGpkZWZhdWx0TWFw\
            oGtkZWZhdWx0RW51bWNGT09uZGVmYXVsdEludEVudW0Ba2VtcHR5U3RyaW5nYGxmYWxzZUJvb2xlYW70aWVtcHR5QmxvYkBoemVy\
            b0J5dGUAaXplcm9TaG9ydABremVyb0ludGVnZXIAaHplcm9Mb25nAA=="""
        bodyMediaType: "application/cbor"
        params: {}
    }
])
