$version: "2.0"

// Smithy RPC v2 CBOR (Smithy 2.0, "Smithy RPC v2 CBOR protocol", "sparse trait"): lists and maps. The comment over a body says it in the
// diagnostic notation of RFC 8949, section 8; the body is base64 text.
namespace smithy.protocoltests.rpcv2Cbor.collections

use smithy.protocols#rpcv2Cbor
use smithy.test#httpRequestTests
use smithy.test#httpResponseTests

@rpcv2Cbor
service RpcV2Protocol {
    version: "2020-07-14"
    operations: [
        RpcV2CborDenseMaps
        RpcV2CborLists
        RpcV2CborSparseMaps
        SparseNullsOperation
    ]
}

// Lists

operation RpcV2CborLists {
    input: RpcV2CborListInputOutput
    output: RpcV2CborListInputOutput
}

structure RpcV2CborListInputOutput {
    stringList: StringList
    stringSet: StringSet
    integerList: IntegerList
    booleanList: BooleanList
    timestampList: TimestampList
    enumList: FooEnumList
    intEnumList: IntegerEnumList
    nestedStringList: NestedStringList
    structureList: StructureList
    blobList: BlobList
}

list StringList {
    member: String
}

@uniqueItems
list StringSet {
    member: String
}

list IntegerList {
    member: Integer
}

list BooleanList {
    member: Boolean
}

list TimestampList {
    member: Timestamp
}

enum FooEnum {
    FOO = "Foo"
    BAZ = "Baz"
    BAR = "Bar"
    ONE = "1"
    ZERO = "0"
}

list FooEnumList {
    member: FooEnum
}

intEnum IntegerEnum {
    A = 1
    B = 2
    C = 3
}

list IntegerEnumList {
    member: IntegerEnum
}

list NestedStringList {
    member: StringList
}

list StructureList {
    member: StructureListMember
}

structure StructureListMember {
    a: String
    b: String
}

list BlobList {
    member: Blob
}

apply RpcV2CborLists @httpRequestTests([
    {
        id: "RpcV2CborLists"
        documentation: "Lists of every kind."
        protocol: rpcv2Cbor
        method: "POST"
        uri: "/service/RpcV2Protocol/operation/RpcV2CborLists"
        headers: { "smithy-protocol": "rpc-v2-cbor", "Accept": "application/cbor", "Content-Type": "application/cbor" }
        requireHeaders: ["Content-Length"]
        // {"stringList": ["foo", "bar"], "stringSet": ["foo", "bar"], "integerList": [1, 2], "booleanList": [true, false],
        // "timestampList": [1(1398796238), 1(1398796238)], "enumList": ["Foo", "0"], "intEnumList": [1, 2],
        // "nestedStringList": [["foo", "bar"], ["baz", "qux"]],
        // "structureList": [{"a": "1", "b": "2"}, {"a": "3", "b": "4"}], "blobList": [h'666f6f', h'626172']}
        body: """
            qmpzdHJpbmdMaXN0gmNmb29jYmFyaXN0cmluZ1NldIJjZm9vY2JhcmtpbnRlZ2VyTGlzdIIBAmtib29sZWFuTGlzdIL19G10aW1l\
            c3RhbXBMaXN0gsEaU1/vzsEaU1/vzmhlbnVtTGlzdIJjRm9vYTBraW50RW51bUxpc3SCAQJwbmVzdGVkU3RyaW5nTGlzdIKCY2Zv\
            b2NiYXKCY2JhemNxdXhtc3RydWN0dXJlTGlzdIKiYWFhMWFiYTKiYWFhM2FiYTRoYmxvYkxpc3SCQ2Zvb0NiYXI="""
        bodyMediaType: "application/cbor"
        params: {
            stringList: ["foo", "bar"]
            stringSet: ["foo", "bar"]
            integerList: [1, 2]
            booleanList: [true, false]
            timestampList: [1398796238, 1398796238]
            enumList: ["Foo", "0"]
            intEnumList: [1, 2]
            nestedStringList: [["foo", "bar"], ["baz", "qux"]]
            structureList: [
                { a: "1", b: "2" }
                { a: "3", b: "4" }
            ]
            blobList: ["foo", "bar"]
        }
    }
    {
        id: "RpcV2CborListsEmpty"
        documentation: "A list without entries is written."
        protocol: rpcv2Cbor
        method: "POST"
        uri: "/service/RpcV2Protocol/operation/RpcV2CborLists"
        headers: { "smithy-protocol": "rpc-v2-cbor", "Accept": "application/cbor", "Content-Type": "application/cbor" }
        // {"stringList": []}
        body: "oWpzdHJpbmdMaXN0gA=="
        bodyMediaType: "application/cbor"
        params: { stringList: [] }
    }
    {
        id: "RpcV2CborListOfMoreThan23Entries"
        documentation: "A list whose number of entries needs a byte of its own."
        tags: ["own"]
        protocol: rpcv2Cbor
        method: "POST"
        uri: "/service/RpcV2Protocol/operation/RpcV2CborLists"
        headers: { "smithy-protocol": "rpc-v2-cbor", "Accept": "application/cbor", "Content-Type": "application/cbor" }
        // {"integerList": [0, 1, 2, 3, 4, 5, 6, 7, 8, 9, 10, 11, 12, 13, 14, 15, 16, 17, 18, 19, 20, 21, 22, 23, 24]}
        body: "oWtpbnRlZ2VyTGlzdJgZAAECAwQFBgcICQoLDA0ODxAREhMUFRYXGBg="
        bodyMediaType: "application/cbor"
        params: {
            integerList: [0, 1, 2, 3, 4, 5, 6, 7, 8, 9, 10, 11, 12, 13, 14, 15, 16, 17, 18, 19, 20, 21, 22, 23, 24]
        }
    }
])

apply RpcV2CborLists @httpResponseTests([
    {
        id: "RpcV2CborLists"
        documentation: "Lists of every kind."
        protocol: rpcv2Cbor
        code: 200
        headers: { "smithy-protocol": "rpc-v2-cbor", "Content-Type": "application/cbor" }
        // {"stringList": ["foo", "bar"], "stringSet": ["foo", "bar"], "integerList": [1, 2], "booleanList": [true, false],
        // "timestampList": [1(1398796238), 1(1398796238)], "enumList": ["Foo", "0"], "intEnumList": [1, 2],
        // "nestedStringList": [["foo", "bar"], ["baz", "qux"]],
        // "structureList": [{"a": "1", "b": "2"}, {"a": "3", "b": "4"}], "blobList": [h'666f6f', h'626172']}
        body: """
            qmpzdHJpbmdMaXN0gmNmb29jYmFyaXN0cmluZ1NldIJjZm9vY2JhcmtpbnRlZ2VyTGlzdIIBAmtib29sZWFuTGlzdIL19G10aW1l\
            c3RhbXBMaXN0gsEaU1/vzsEaU1/vzmhlbnVtTGlzdIJjRm9vYTBraW50RW51bUxpc3SCAQJwbmVzdGVkU3RyaW5nTGlzdIKCY2Zv\
            b2NiYXKCY2JhemNxdXhtc3RydWN0dXJlTGlzdIKiYWFhMWFiYTKiYWFhM2FiYTRoYmxvYkxpc3SCQ2Zvb0NiYXI="""
        bodyMediaType: "application/cbor"
        params: {
            stringList: ["foo", "bar"]
            stringSet: ["foo", "bar"]
            integerList: [1, 2]
            booleanList: [true, false]
            timestampList: [1398796238, 1398796238]
            enumList: ["Foo", "0"]
            intEnumList: [1, 2]
            nestedStringList: [["foo", "bar"], ["baz", "qux"]]
            structureList: [
                { a: "1", b: "2" }
                { a: "3", b: "4" }
            ]
            blobList: ["foo", "bar"]
        }
    }
    {
        id: "RpcV2CborListsEmpty"
        documentation: "A list without entries is written."
        protocol: rpcv2Cbor
        code: 200
        headers: { "smithy-protocol": "rpc-v2-cbor", "Content-Type": "application/cbor" }
        // {"stringList": []}
        body: "oWpzdHJpbmdMaXN0gA=="
        bodyMediaType: "application/cbor"
        params: { stringList: [] }
    }
])

operation SparseNullsOperation {
    input: SparseNullsOperationInputOutput
    output: SparseNullsOperationInputOutput
}

structure SparseNullsOperationInputOutput {
    sparseStringList: SparseStringList
    sparseStringMap: SparseStringMap
}

@sparse
list SparseStringList {
    member: String
}

apply SparseNullsOperation @httpRequestTests([
    {
        id: "RpcV2CborSparseMapsSerializeNullValues"
        documentation: "A sparse map has null under a key without a value."
        protocol: rpcv2Cbor
        method: "POST"
        uri: "/service/RpcV2Protocol/operation/SparseNullsOperation"
        headers: { "smithy-protocol": "rpc-v2-cbor", "Accept": "application/cbor", "Content-Type": "application/cbor" }
        // {"sparseStringMap": {"foo": null}}
        body: "oW9zcGFyc2VTdHJpbmdNYXChY2Zvb/Y="
        bodyMediaType: "application/cbor"
        params: { sparseStringMap: { foo: null } }
    }
    {
        id: "RpcV2CborSparseListsSerializeNull"
        documentation: "A sparse list has null for an entry without a value."
        protocol: rpcv2Cbor
        method: "POST"
        uri: "/service/RpcV2Protocol/operation/SparseNullsOperation"
        headers: { "smithy-protocol": "rpc-v2-cbor", "Accept": "application/cbor", "Content-Type": "application/cbor" }
        // {"sparseStringList": [null]}
        body: "oXBzcGFyc2VTdHJpbmdMaXN0gfY="
        bodyMediaType: "application/cbor"
        params: { sparseStringList: [null] }
    }
])

apply SparseNullsOperation @httpResponseTests([
    {
        id: "RpcV2CborSparseMapsDeserializeNullValues"
        documentation: "A sparse map keeps null."
        protocol: rpcv2Cbor
        code: 200
        headers: { "smithy-protocol": "rpc-v2-cbor", "Content-Type": "application/cbor" }
        // {"sparseStringMap": {"bar": "", "foo": null}}
        body: "oW9zcGFyc2VTdHJpbmdNYXCiY2JhcmBjZm9v9g=="
        bodyMediaType: "application/cbor"
        params: { sparseStringMap: { foo: null, bar: "" } }
    }
    {
        id: "RpcV2CborSparseListsDeserializeNull"
        documentation: "A sparse list keeps null."
        protocol: rpcv2Cbor
        code: 200
        headers: { "smithy-protocol": "rpc-v2-cbor", "Content-Type": "application/cbor" }
        // {"sparseStringList": ["a", null]}
        body: "oXBzcGFyc2VTdHJpbmdMaXN0gmFh9g=="
        bodyMediaType: "application/cbor"
        params: { sparseStringList: ["a", null] }
    }
])

// Maps

operation RpcV2CborDenseMaps {
    input: RpcV2CborDenseMapsInputOutput
    output: RpcV2CborDenseMapsInputOutput
}

structure RpcV2CborDenseMapsInputOutput {
    denseStructMap: DenseStructMap
    denseNumberMap: DenseNumberMap
    denseBooleanMap: DenseBooleanMap
    denseStringMap: DenseStringMap
    denseSetMap: DenseSetMap
}

map DenseStructMap {
    key: String
    value: GreetingStruct
}

map DenseNumberMap {
    key: String
    value: Integer
}

map DenseBooleanMap {
    key: String
    value: Boolean
}

map DenseStringMap {
    key: String
    value: String
}

map DenseSetMap {
    key: String
    value: StringSet
}

structure GreetingStruct {
    hi: String
}

apply RpcV2CborDenseMaps @httpRequestTests([
    {
        id: "RpcV2CborMaps"
        documentation: "A map to structures."
        protocol: rpcv2Cbor
        method: "POST"
        uri: "/service/RpcV2Protocol/operation/RpcV2CborDenseMaps"
        headers: { "smithy-protocol": "rpc-v2-cbor", "Accept": "application/cbor", "Content-Type": "application/cbor" }
        // {"denseStructMap": {"foo": {"hi": "there"}, "baz": {"hi": "bye"}}}
        body: "oW5kZW5zZVN0cnVjdE1hcKJjZm9voWJoaWV0aGVyZWNiYXqhYmhpY2J5ZQ=="
        bodyMediaType: "application/cbor"
        params: {
            denseStructMap: {
                foo: { hi: "there" }
                baz: { hi: "bye" }
            }
        }
    }
    {
        id: "RpcV2CborSerializesZeroValuesInMaps"
        documentation: "Zero and false stand in maps."
        protocol: rpcv2Cbor
        method: "POST"
        uri: "/service/RpcV2Protocol/operation/RpcV2CborDenseMaps"
        headers: { "smithy-protocol": "rpc-v2-cbor", "Accept": "application/cbor", "Content-Type": "application/cbor" }
        // {"denseNumberMap": {"x": 0}, "denseBooleanMap": {"x": false}}
        body: "om5kZW5zZU51bWJlck1hcKFheABvZGVuc2VCb29sZWFuTWFwoWF49A=="
        bodyMediaType: "application/cbor"
        params: {
            denseNumberMap: { x: 0 }
            denseBooleanMap: { x: false }
        }
    }
    {
        id: "RpcV2CborSerializesDenseSetMap"
        documentation: "A map to sets."
        protocol: rpcv2Cbor
        method: "POST"
        uri: "/service/RpcV2Protocol/operation/RpcV2CborDenseMaps"
        headers: { "smithy-protocol": "rpc-v2-cbor", "Accept": "application/cbor", "Content-Type": "application/cbor" }
        // {"denseSetMap": {"x": [], "y": ["a", "b"]}}
        body: "oWtkZW5zZVNldE1hcKJheIBheYJhYWFi"
        bodyMediaType: "application/cbor"
        params: {
            denseSetMap: {
                x: []
                y: ["a", "b"]
            }
        }
    }
])

apply RpcV2CborDenseMaps @httpResponseTests([
    {
        id: "RpcV2CborMaps"
        documentation: "A map to structures."
        protocol: rpcv2Cbor
        code: 200
        headers: { "smithy-protocol": "rpc-v2-cbor", "Content-Type": "application/cbor" }
        // {"denseStructMap": {"foo": {"hi": "there"}, "baz": {"hi": "bye"}}}
        body: "oW5kZW5zZVN0cnVjdE1hcKJjZm9voWJoaWV0aGVyZWNiYXqhYmhpY2J5ZQ=="
        bodyMediaType: "application/cbor"
        params: {
            denseStructMap: {
                foo: { hi: "there" }
                baz: { hi: "bye" }
            }
        }
    }
    {
        id: "RpcV2CborDeserializesZeroValuesInMaps"
        documentation: "Zero and false stand in maps."
        protocol: rpcv2Cbor
        code: 200
        headers: { "smithy-protocol": "rpc-v2-cbor", "Content-Type": "application/cbor" }
        // {"denseNumberMap": {"x": 0}, "denseBooleanMap": {"x": false}}
        body: "om5kZW5zZU51bWJlck1hcKFheABvZGVuc2VCb29sZWFuTWFwoWF49A=="
        bodyMediaType: "application/cbor"
        params: {
            denseNumberMap: { x: 0 }
            denseBooleanMap: { x: false }
        }
    }
    {
        id: "RpcV2CborDeserializesDenseSetMap"
        documentation: "A map to sets."
        protocol: rpcv2Cbor
        code: 200
        headers: { "smithy-protocol": "rpc-v2-cbor", "Content-Type": "application/cbor" }
        // {"denseSetMap": {"x": [], "y": ["a", "b"]}, "denseStringMap": {"": "key of no characters"}}
        body: "omtkZW5zZVNldE1hcKJheIBheYJhYWFibmRlbnNlU3RyaW5nTWFwoWB0a2V5IG9mIG5vIGNoYXJhY3RlcnM="
        bodyMediaType: "application/cbor"
        params: {
            denseSetMap: {
                x: []
                y: ["a", "b"]
            }
            denseStringMap: { "": "key of no characters" }
        }
    }
])

operation RpcV2CborSparseMaps {
    input: RpcV2CborSparseMapsInputOutput
    output: RpcV2CborSparseMapsInputOutput
}

structure RpcV2CborSparseMapsInputOutput {
    sparseStructMap: SparseStructMap
    sparseNumberMap: SparseNumberMap
    sparseBooleanMap: SparseBooleanMap
    sparseStringMap: SparseStringMap
    sparseSetMap: SparseSetMap
}

@sparse
map SparseStructMap {
    key: String
    value: GreetingStruct
}

@sparse
map SparseNumberMap {
    key: String
    value: Integer
}

@sparse
map SparseBooleanMap {
    key: String
    value: Boolean
}

@sparse
map SparseStringMap {
    key: String
    value: String
}

@sparse
map SparseSetMap {
    key: String
    value: StringSet
}

apply RpcV2CborSparseMaps @httpRequestTests([
    {
        id: "RpcV2CborSparseMaps"
        documentation: "A sparse map without nulls."
        protocol: rpcv2Cbor
        method: "POST"
        uri: "/service/RpcV2Protocol/operation/RpcV2CborSparseMaps"
        headers: { "smithy-protocol": "rpc-v2-cbor", "Accept": "application/cbor", "Content-Type": "application/cbor" }
        // {"sparseStructMap": {"foo": {"hi": "there"}, "baz": {"hi": "bye"}}}
        body: "oW9zcGFyc2VTdHJ1Y3RNYXCiY2Zvb6FiaGlldGhlcmVjYmF6oWJoaWNieWU="
        bodyMediaType: "application/cbor"
        params: {
            sparseStructMap: {
                foo: { hi: "there" }
                baz: { hi: "bye" }
            }
        }
    }
    {
        id: "RpcV2CborSerializesNullMapValues"
        documentation: "Sparse maps keep null."
        protocol: rpcv2Cbor
        method: "POST"
        uri: "/service/RpcV2Protocol/operation/RpcV2CborSparseMaps"
        headers: { "smithy-protocol": "rpc-v2-cbor", "Accept": "application/cbor", "Content-Type": "application/cbor" }
        // {"sparseBooleanMap": {"x": null}, "sparseNumberMap": {"x": null}, "sparseStringMap": {"x": null},
        // "sparseStructMap": {"x": null}}
        body: """
            pHBzcGFyc2VCb29sZWFuTWFwoWF49m9zcGFyc2VOdW1iZXJNYXChYXj2b3NwYXJzZVN0cmluZ01hcKFhePZvc3BhcnNlU3RydWN0\
            TWFwoWF49g=="""
        bodyMediaType: "application/cbor"
        params: {
            sparseBooleanMap: { x: null }
            sparseNumberMap: { x: null }
            sparseStringMap: { x: null }
            sparseStructMap: { x: null }
        }
    }
    {
        id: "RpcV2CborSerializesZeroValuesInSparseMaps"
        documentation: "Zero and false aren't null."
        protocol: rpcv2Cbor
        method: "POST"
        uri: "/service/RpcV2Protocol/operation/RpcV2CborSparseMaps"
        headers: { "smithy-protocol": "rpc-v2-cbor", "Accept": "application/cbor", "Content-Type": "application/cbor" }
        // {"sparseNumberMap": {"x": 0}, "sparseBooleanMap": {"x": false}}
        body: "om9zcGFyc2VOdW1iZXJNYXChYXgAcHNwYXJzZUJvb2xlYW5NYXChYXj0"
        bodyMediaType: "application/cbor"
        params: {
            sparseNumberMap: { x: 0 }
            sparseBooleanMap: { x: false }
        }
    }
    {
        id: "RpcV2CborSerializesSparseSetMap"
        documentation: "A sparse map to sets, without nulls."
        protocol: rpcv2Cbor
        method: "POST"
        uri: "/service/RpcV2Protocol/operation/RpcV2CborSparseMaps"
        headers: { "smithy-protocol": "rpc-v2-cbor", "Accept": "application/cbor", "Content-Type": "application/cbor" }
        // {"sparseSetMap": {"x": [], "y": ["a", "b"]}}
        body: "oWxzcGFyc2VTZXRNYXCiYXiAYXmCYWFhYg=="
        bodyMediaType: "application/cbor"
        params: {
            sparseSetMap: {
                x: []
                y: ["a", "b"]
            }
        }
    }
    {
        id: "RpcV2CborSerializesSparseSetMapAndRetainsNull"
        documentation: "A sparse map to sets keeps null, which isn't the empty set."
        protocol: rpcv2Cbor
        method: "POST"
        uri: "/service/RpcV2Protocol/operation/RpcV2CborSparseMaps"
        headers: { "smithy-protocol": "rpc-v2-cbor", "Accept": "application/cbor", "Content-Type": "application/cbor" }
        // {"sparseSetMap": {"x": [], "y": ["a", "b"], "z": null}}
        body: "oWxzcGFyc2VTZXRNYXCjYXiAYXmCYWFhYmF69g=="
        bodyMediaType: "application/cbor"
        params: {
            sparseSetMap: {
                x: []
                y: ["a", "b"]
                z: null
            }
        }
    }
])

apply RpcV2CborSparseMaps @httpResponseTests([
    {
        id: "RpcV2CborSparseJsonMaps"
        documentation: "A sparse map without nulls."
        protocol: rpcv2Cbor
        code: 200
        headers: { "smithy-protocol": "rpc-v2-cbor", "Content-Type": "application/cbor" }
        // {"sparseStructMap": {"foo": {"hi": "there"}, "baz": {"hi": "bye"}}}
        body: "oW9zcGFyc2VTdHJ1Y3RNYXCiY2Zvb6FiaGlldGhlcmVjYmF6oWJoaWNieWU="
        bodyMediaType: "application/cbor"
        params: {
            sparseStructMap: {
                foo: { hi: "there" }
                baz: { hi: "bye" }
            }
        }
    }
    {
        id: "RpcV2CborDeserializesNullMapValues"
        documentation: "Sparse maps keep null."
        protocol: rpcv2Cbor
        code: 200
        headers: { "smithy-protocol": "rpc-v2-cbor", "Content-Type": "application/cbor" }
        // {"sparseBooleanMap": {"x": null}, "sparseNumberMap": {"x": null}, "sparseStringMap": {"x": null},
        // "sparseStructMap": {"x": null}}
        body: """
            pHBzcGFyc2VCb29sZWFuTWFwoWF49m9zcGFyc2VOdW1iZXJNYXChYXj2b3NwYXJzZVN0cmluZ01hcKFhePZvc3BhcnNlU3RydWN0\
            TWFwoWF49g=="""
        bodyMediaType: "application/cbor"
        params: {
            sparseBooleanMap: { x: null }
            sparseNumberMap: { x: null }
            sparseStringMap: { x: null }
            sparseStructMap: { x: null }
        }
    }
    {
        id: "RpcV2CborDeserializesZeroValuesInSparseMaps"
        documentation: "Zero and false aren't null."
        protocol: rpcv2Cbor
        code: 200
        headers: { "smithy-protocol": "rpc-v2-cbor", "Content-Type": "application/cbor" }
        // {"sparseNumberMap": {"x": 0}, "sparseBooleanMap": {"x": false}}
        body: "om9zcGFyc2VOdW1iZXJNYXChYXgAcHNwYXJzZUJvb2xlYW5NYXChYXj0"
        bodyMediaType: "application/cbor"
        params: {
            sparseNumberMap: { x: 0 }
            sparseBooleanMap: { x: false }
        }
    }
    {
        id: "RpcV2CborDeserializesSparseSetMap"
        documentation: "A sparse map to sets, without nulls."
        protocol: rpcv2Cbor
        code: 200
        headers: { "smithy-protocol": "rpc-v2-cbor", "Content-Type": "application/cbor" }
        // {"sparseSetMap": {"y": ["a", "b"], "x": []}}
        body: "oWxzcGFyc2VTZXRNYXCiYXmCYWFhYmF4gA=="
        bodyMediaType: "application/cbor"
        params: {
            sparseSetMap: {
                x: []
                y: ["a", "b"]
            }
        }
    }
    {
        id: "RpcV2CborDeserializesSparseSetMapAndRetainsNull"
        documentation: "A sparse map to sets keeps null. Pairs may stand in any order."
        protocol: rpcv2Cbor
        code: 200
        headers: { "smithy-protocol": "rpc-v2-cbor", "Content-Type": "application/cbor" }
        // {"sparseSetMap": {"z": null, "y": ["a", "b"], "x": []}}
        body: "oWxzcGFyc2VTZXRNYXCjYXr2YXmCYWFhYmF4gA=="
        bodyMediaType: "application/cbor"
        params: {
            sparseSetMap: {
                x: []
                y: ["a", "b"]
                z: null
            }
        }
    }
])
