$version: "2.0"

// AWS restJson1 (Smithy 2.0, "AWS restJson1 protocol", "sparse trait"): lists and maps in a JSON document.
namespace aws.protocoltests.restjson.collections

use aws.protocols#restJson1
use smithy.test#httpRequestTests
use smithy.test#httpResponseTests

@restJson1
service RestJson {
    version: "2019-12-16"
    operations: [
        JsonLists
        JsonMaps
        SparseJsonLists
        SparseJsonMaps
    ]
}

// Lists

@idempotent
@http(method: "PUT", uri: "/JsonLists")
operation JsonLists {
    input: JsonListsInputOutput
    output: JsonListsInputOutput
}

structure JsonListsInputOutput {
    stringList: StringList

    stringSet: StringSet

    integerList: IntegerList

    booleanList: BooleanList

    timestampList: TimestampList

    enumList: FooEnumList

    intEnumList: IntegerEnumList

    nestedStringList: NestedStringList

    @jsonName("myStructureList")
    structureList: StructureList
}

list StringList {
    member: String
}

@uniqueItems
list StringSet {
    member: String
}

list IntegerList {
    member: Integer
}

list BooleanList {
    member: Boolean
}

list TimestampList {
    member: Timestamp
}

enum FooEnum {
    FOO = "Foo"
    BAZ = "Baz"
    BAR = "Bar"
    ONE = "1"
    ZERO = "0"
}

list FooEnumList {
    member: FooEnum
}

intEnum IntegerEnum {
    A = 1
    B = 2
    C = 3
}

list IntegerEnumList {
    member: IntegerEnum
}

list NestedStringList {
    member: StringList
}

list StructureList {
    member: StructureListMember
}

structure StructureListMember {
    @jsonName("value")
    a: String

    @jsonName("other")
    b: String
}

apply JsonLists @httpRequestTests([
    {
        id: "RestJsonLists"
        documentation: "Lists of every kind."
        protocol: restJson1
        method: "PUT"
        uri: "/JsonLists"
        headers: { "Content-Type": "application/json" }
        body: """
            {
                "stringList": ["foo", "bar"],
                "stringSet": ["foo", "bar"],
                "integerList": [1, 2],
                "booleanList": [true, false],
                "timestampList": [1398796238, 1398796238],
                "enumList": ["Foo", "0"],
                "intEnumList": [1, 2],
                "nestedStringList": [["foo", "bar"], ["baz", "qux"]],
                "myStructureList": [
                    { "value": "1", "other": "2" },
                    { "value": "3", "other": "4" }
                ]
            }"""
        bodyMediaType: "application/json"
        params: {
            stringList: ["foo", "bar"]
            stringSet: ["foo", "bar"]
            integerList: [1, 2]
            booleanList: [true, false]
            timestampList: [1398796238, 1398796238]
            enumList: ["Foo", "0"]
            intEnumList: [1, 2]
            nestedStringList: [["foo", "bar"], ["baz", "qux"]]
            structureList: [
                { a: "1", b: "2" }
                { a: "3", b: "4" }
            ]
        }
    }
    {
        id: "RestJsonListsEmpty"
        documentation: "A list without entries is written."
        protocol: restJson1
        method: "PUT"
        uri: "/JsonLists"
        headers: { "Content-Type": "application/json" }
        body: """
            { "stringList": [] }"""
        bodyMediaType: "application/json"
        params: { stringList: [] }
    }
])

apply JsonLists @httpResponseTests([
    {
        id: "RestJsonLists"
        documentation: "Lists of every kind."
        protocol: restJson1
        code: 200
        headers: { "Content-Type": "application/json" }
        body: """
            {
                "stringList": ["foo", "bar"],
                "stringSet": ["foo", "bar"],
                "integerList": [1, 2],
                "booleanList": [true, false],
                "timestampList": [1398796238, 1398796238],
                "enumList": ["Foo", "0"],
                "intEnumList": [1, 2],
                "nestedStringList": [["foo", "bar"], ["baz", "qux"]],
                "myStructureList": [
                    { "value": "1", "other": "2" },
                    { "value": "3", "other": "4" }
                ]
            }"""
        bodyMediaType: "application/json"
        params: {
            stringList: ["foo", "bar"]
            stringSet: ["foo", "bar"]
            integerList: [1, 2]
            booleanList: [true, false]
            timestampList: [1398796238, 1398796238]
            enumList: ["Foo", "0"]
            intEnumList: [1, 2]
            nestedStringList: [["foo", "bar"], ["baz", "qux"]]
            structureList: [
                { a: "1", b: "2" }
                { a: "3", b: "4" }
            ]
        }
    }
    {
        id: "RestJsonListsEmpty"
        documentation: "A list without entries is written."
        protocol: restJson1
        code: 200
        headers: { "Content-Type": "application/json" }
        body: """
            { "stringList": [] }"""
        bodyMediaType: "application/json"
        params: { stringList: [] }
    }
])

@idempotent
@http(method: "PUT", uri: "/SparseJsonLists")
operation SparseJsonLists {
    input: SparseJsonListsInputOutput
    output: SparseJsonListsInputOutput
}

structure SparseJsonListsInputOutput {
    sparseStringList: SparseStringList
    sparseShortList: SparseShortList
}

@sparse
list SparseStringList {
    member: String
}

@sparse
list SparseShortList {
    member: Short
}

apply SparseJsonLists @httpRequestTests([
    {
        id: "RestJsonSparseListsSerializeNull"
        documentation: "A sparse list keeps null."
        protocol: restJson1
        method: "PUT"
        uri: "/SparseJsonLists"
        headers: { "Content-Type": "application/json" }
        body: """
            { "sparseStringList": [null, "hi"] }"""
        bodyMediaType: "application/json"
        params: { sparseStringList: [null, "hi"] }
    }
])

apply SparseJsonLists @httpResponseTests([
    {
        id: "RestJsonSparseListsSerializeNull"
        documentation: "A sparse list keeps null."
        protocol: restJson1
        code: 200
        headers: { "Content-Type": "application/json" }
        body: """
            { "sparseStringList": [null, "hi"], "sparseShortList": [null, 2, null] }"""
        bodyMediaType: "application/json"
        params: {
            sparseStringList: [null, "hi"]
            sparseShortList: [null, 2, null]
        }
    }
])

// Maps

@http(method: "POST", uri: "/JsonMaps")
operation JsonMaps {
    input: JsonMapsInputOutput
    output: JsonMapsInputOutput
}

structure JsonMapsInputOutput {
    denseStructMap: DenseStructMap
    denseNumberMap: DenseNumberMap
    denseBooleanMap: DenseBooleanMap
    denseStringMap: DenseStringMap
    denseSetMap: DenseSetMap
    denseEnumKeyMap: DenseEnumKeyMap
}

map DenseStructMap {
    key: String
    value: GreetingStruct
}

map DenseNumberMap {
    key: String
    value: Integer
}

map DenseBooleanMap {
    key: String
    value: Boolean
}

map DenseStringMap {
    key: String
    value: String
}

map DenseSetMap {
    key: String
    value: StringSet
}

map DenseEnumKeyMap {
    key: FooEnum
    value: Timestamp
}

structure GreetingStruct {
    hi: String
}

apply JsonMaps @httpRequestTests([
    {
        id: "RestJsonJsonMaps"
        documentation: "A map to structures."
        protocol: restJson1
        method: "POST"
        uri: "/JsonMaps"
        headers: { "Content-Type": "application/json" }
        body: """
            {
                "denseStructMap": {
                    "foo": { "hi": "there" },
                    "baz": { "hi": "bye" }
                }
            }"""
        bodyMediaType: "application/json"
        params: {
            denseStructMap: {
                foo: { hi: "there" }
                baz: { hi: "bye" }
            }
        }
    }
    {
        id: "RestJsonSerializesZeroValuesInMaps"
        documentation: "Zero and false stand in maps."
        protocol: restJson1
        method: "POST"
        uri: "/JsonMaps"
        headers: { "Content-Type": "application/json" }
        body: """
            {
                "denseNumberMap": { "x": 0 },
                "denseBooleanMap": { "x": false }
            }"""
        bodyMediaType: "application/json"
        params: {
            denseNumberMap: { x: 0 }
            denseBooleanMap: { x: false }
        }
    }
    {
        id: "RestJsonSerializesDenseSetMap"
        documentation: "A map to sets."
        protocol: restJson1
        method: "POST"
        uri: "/JsonMaps"
        headers: { "Content-Type": "application/json" }
        body: """
            {
                "denseSetMap": {
                    "x": [],
                    "y": ["a", "b"]
                }
            }"""
        bodyMediaType: "application/json"
        params: {
            denseSetMap: {
                x: []
                y: ["a", "b"]
            }
        }
    }
    {
        id: "RestJsonMapKeysOfOtherKinds"
        documentation: "Keys are texts as they are, the empty one too; those of an enum are its values."
        tags: ["own"]
        protocol: restJson1
        method: "POST"
        uri: "/JsonMaps"
        headers: { "Content-Type": "application/json" }
        body: """
            {
                "denseStringMap": { "": "empty", "a/b~c": "", "é\\n": "e" },
                "denseEnumKeyMap": { "Foo": 1, "0": 0.25 }
            }"""
        bodyMediaType: "application/json"
        params: {
            denseStringMap: { "": "empty", "a/b~c": "", "é\n": "e" }
            denseEnumKeyMap: { Foo: 1, "0": 0.25 }
        }
    }
])

apply JsonMaps @httpResponseTests([
    {
        id: "RestJsonJsonMaps"
        documentation: "A map to structures."
        protocol: restJson1
        code: 200
        headers: { "Content-Type": "application/json" }
        body: """
            {
                "denseStructMap": {
                    "foo": { "hi": "there" },
                    "baz": { "hi": "bye" }
                }
            }"""
        bodyMediaType: "application/json"
        params: {
            denseStructMap: {
                foo: { hi: "there" }
                baz: { hi: "bye" }
            }
        }
    }
    {
        id: "RestJsonDeserializesZeroValuesInMaps"
        documentation: "Zero and false stand in maps."
        protocol: restJson1
        code: 200
        headers: { "Content-Type": "application/json" }
        body: """
            {
                "denseNumberMap": { "x": 0 },
                "denseBooleanMap": { "x": false }
            }"""
        bodyMediaType: "application/json"
        params: {
            denseNumberMap: { x: 0 }
            denseBooleanMap: { x: false }
        }
    }
    {
        id: "RestJsonDeserializesDenseSetMap"
        documentation: "A map to sets."
        protocol: restJson1
        code: 200
        headers: { "Content-Type": "application/json" }
        body: """
            {
                "denseSetMap": {
                    "x": [],
                    "y": ["a", "b"]
                }
            }"""
        bodyMediaType: "application/json"
        params: {
            denseSetMap: {
                x: []
                y: ["a", "b"]
            }
        }
    }
])

@http(method: "POST", uri: "/SparseJsonMaps")
operation SparseJsonMaps {
    input: SparseJsonMapsInputOutput
    output: SparseJsonMapsInputOutput
}

structure SparseJsonMapsInputOutput {
    sparseStructMap: SparseStructMap
    sparseNumberMap: SparseNumberMap
    sparseBooleanMap: SparseBooleanMap
    sparseStringMap: SparseStringMap
    sparseSetMap: SparseSetMap
}

@sparse
map SparseStructMap {
    key: String
    value: GreetingStruct
}

@sparse
map SparseNumberMap {
    key: String
    value: Integer
}

@sparse
map SparseBooleanMap {
    key: String
    value: Boolean
}

@sparse
map SparseStringMap {
    key: String
    value: String
}

@sparse
map SparseSetMap {
    key: String
    value: StringSet
}

apply SparseJsonMaps @httpRequestTests([
    {
        id: "RestJsonSparseJsonMaps"
        documentation: "A sparse map without nulls."
        protocol: restJson1
        method: "POST"
        uri: "/SparseJsonMaps"
        headers: { "Content-Type": "application/json" }
        body: """
            {
                "sparseStructMap": {
                    "foo": { "hi": "there" },
                    "baz": { "hi": "bye" }
                }
            }"""
        bodyMediaType: "application/json"
        params: {
            sparseStructMap: {
                foo: { hi: "there" }
                baz: { hi: "bye" }
            }
        }
    }
    {
        id: "RestJsonSerializesSparseNullMapValues"
        documentation: "Sparse maps keep null."
        protocol: restJson1
        method: "POST"
        uri: "/SparseJsonMaps"
        headers: { "Content-Type": "application/json" }
        body: """
            {
                "sparseBooleanMap": { "x": null },
                "sparseNumberMap": { "x": null },
                "sparseStringMap": { "x": null },
                "sparseStructMap": { "x": null }
            }"""
        bodyMediaType: "application/json"
        params: {
            sparseBooleanMap: { x: null }
            sparseNumberMap: { x: null }
            sparseStringMap: { x: null }
            sparseStructMap: { x: null }
        }
    }
    {
        id: "RestJsonSerializesZeroValuesInSparseMaps"
        documentation: "Zero and false aren't null."
        protocol: restJson1
        method: "POST"
        uri: "/SparseJsonMaps"
        headers: { "Content-Type": "application/json" }
        body: """
            {
                "sparseNumberMap": { "x": 0 },
                "sparseBooleanMap": { "x": false }
            }"""
        bodyMediaType: "application/json"
        params: {
            sparseNumberMap: { x: 0 }
            sparseBooleanMap: { x: false }
        }
    }
    {
        id: "RestJsonSerializesSparseSetMap"
        documentation: "A sparse map to sets, without nulls."
        protocol: restJson1
        method: "POST"
        uri: "/SparseJsonMaps"
        headers: { "Content-Type": "application/json" }
        body: """
            {
                "sparseSetMap": {
                    "x": [],
                    "y": ["a", "b"]
                }
            }"""
        bodyMediaType: "application/json"
        params: {
            sparseSetMap: {
                x: []
                y: ["a", "b"]
            }
        }
    }
    {
        id: "RestJsonSerializesSparseSetMapAndRetainsNull"
        documentation: "A sparse map to sets keeps null, which isn't the empty set."
        protocol: restJson1
        method: "POST"
        uri: "/SparseJsonMaps"
        headers: { "Content-Type": "application/json" }
        body: """
            {
                "sparseSetMap": {
                    "x": [],
                    "y": ["a", "b"],
                    "z": null
                }
            }"""
        bodyMediaType: "application/json"
        params: {
            sparseSetMap: {
                x: []
                y: ["a", "b"]
                z: null
            }
        }
    }
])

apply SparseJsonMaps @httpResponseTests([
    {
        id: "RestJsonSparseJsonMaps"
        documentation: "A sparse map without nulls."
        protocol: restJson1
        code: 200
        headers: { "Content-Type": "application/json" }
        body: """
            {
                "sparseStructMap": {
                    "foo": { "hi": "there" },
                    "baz": { "hi": "bye" }
                }
            }"""
        bodyMediaType: "application/json"
        params: {
            sparseStructMap: {
                foo: { hi: "there" }
                baz: { hi: "bye" }
            }
        }
    }
    {
        id: "RestJsonDeserializesSparseNullMapValues"
        documentation: "Sparse maps keep null."
        protocol: restJson1
        code: 200
        headers: { "Content-Type": "application/json" }
        body: """
            {
                "sparseBooleanMap": { "x": null },
                "sparseNumberMap": { "x": null },
                "sparseStringMap": { "x": null },
                "sparseStructMap": { "x": null }
            }"""
        bodyMediaType: "application/json"
        params: {
            sparseBooleanMap: { x: null }
            sparseNumberMap: { x: null }
            sparseStringMap: { x: null }
            sparseStructMap: { x: null }
        }
    }
    {
        id: "RestJsonDeserializesZeroValuesInSparseMaps"
        documentation: "Zero and false aren't null."
        protocol: restJson1
        code: 200
        headers: { "Content-Type": "application/json" }
        body: """
            {
                "sparseNumberMap": { "x": 0 },
                "sparseBooleanMap": { "x": false }
            }"""
        bodyMediaType: "application/json"
        params: {
            sparseNumberMap: { x: 0 }
            sparseBooleanMap: { x: false }
        }
    }
    {
        id: "RestJsonDeserializesSparseSetMap"
        documentation: "A sparse map to sets, without nulls."
        protocol: restJson1
        code: 200
        headers: { "Content-Type": "application/json" }
        body: """
            {
                "sparseSetMap": {
                    "x": [],
                    "y": ["a", "b"]
                }
            }"""
        bodyMediaType: "application/json"
        params: {
            sparseSetMap: {
                x: []
                y: ["a", "b"]
            }
        }
    }
    {
        id: "RestJsonDeserializesSparseSetMapAndRetainsNull"
        documentation: "A sparse map to sets keeps null."
        protocol: restJson1
        code: 200
        headers: { "Content-Type": "application/json" }
        body: """
            {
                "sparseSetMap": {
                    "x": [],
                    "y": ["a", "b"],
                    "z": null
                }
            }"""
        bodyMediaType: "application/json"
        params: {
            sparseSetMap: {
                x: []
                y: ["a", "b"]
                z: null
            }
        }
    }
])
