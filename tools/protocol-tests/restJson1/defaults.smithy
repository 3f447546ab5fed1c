$version: "2.0"

// AWS restJson1 (Smithy 2.0, "AWS restJson1 protocol", "default trait"): members with defaults, in documents and where a binding stands.
namespace aws.protocoltests.restjson.defaults

use aws.protocols#restJson1
use smithy.test#httpRequestTests
use smithy.test#httpResponseTests

@restJson1
service RestJson {
    version: "2019-12-16"
    operations: [
        DefaultsOfBoundMembers
        OperationWithDefaults
        OperationWithNestedStructure
    ]
}

@http(method: "POST", uri: "/OperationWithDefaults")
operation OperationWithDefaults {
    input := {
        defaults: Defaults
        topLevelDefault: String = "hi"
        otherTopLevelDefault: Integer = 0
    }

    output := with [DefaultMembers] {}
}

structure Defaults with [DefaultMembers] {}

@mixin
structure DefaultMembers {
    defaultString: String = "hi"
    defaultBoolean: Boolean = true
    defaultList: TestStringList = []
    defaultTimestamp: Timestamp = 0
    defaultBlob: Blob = "YWJj"
    defaultByte: Byte = 1
    defaultShort: Short = 1
    defaultInteger: Integer = 10
    defaultLong: Long = 100
    defaultMap: TestStringMap = {}
    defaultEnum: TestEnum = "FOO"
    defaultIntEnum: TestIntEnum = 1
    emptyString: String = ""
    falseBoolean: Boolean = false
    emptyBlob: Blob = ""
    zeroByte: Byte = 0
    zeroShort: Short = 0
    zeroInteger: Integer = 0
    zeroLong: Long = 0
}

list TestStringList {
    member: String
}

map TestStringMap {
    key: String
    value: String
}

enum TestEnum {
    FOO
    BAR
    BAZ
}

intEnum TestIntEnum {
    ONE = 1
    TWO = 2
}

apply OperationWithDefaults @httpRequestTests([
    {
        id: "RestJsonClientPopulatesDefaultValuesInInputAndTopLevel"
        documentation: "Members that are absent are written with their defaults, below the top and at the top."
        tags: ["changed"]
        protocol: restJson1
        method: "POST"
        uri: "/OperationWithDefaults"
        headers: { "Content-Type": "application/json" }
        body: """
            {
                "defaults": {
                    "defaultString": "hi",
                    "defaultBoolean": true,
                    "defaultList": [],
                    "defaultTimestamp": 0,
                    "defaultBlob": "YWJj",
                    "defaultByte": 1,
                    "defaultShort": 1,
                    "defaultInteger": 10,
                    "defaultLong": 100,
                    "defaultMap": {},
                    "defaultEnum": "FOO",
                    "defaultIntEnum": 1,
                    "emptyString": "",
                    "falseBoolean": false,
                    "emptyBlob": "",
                    "zeroByte": 0,
                    "zeroShort": 0,
                    "zeroInteger": 0,
                    "zeroLong": 0
                },
                "topLevelDefault": "hi",
                "otherTopLevelDefault": 0
            }"""
        bodyMediaType: "application/json"
        params: { defaults: {} }
    }
    {
        id: "RestJsonPopulatesTopLevelDefaultValuesInInput"
        documentation: "A structure that is absent stays so; the defaults at the top are written."
        tags: ["own"]
        protocol: restJson1
        method: "POST"
        uri: "/OperationWithDefaults"
        headers: { "Content-Type": "application/json" }
        body: """
            { "topLevelDefault": "hi", "otherTopLevelDefault": 0 }"""
        bodyMediaType: "application/json"
        params: {}
    }
    {
        id: "RestJsonClientUsesExplicitlyProvidedMemberValuesOverDefaultsWithTopLevel"
        documentation: "What is given goes before the defaults."
        tags: ["changed"]
        protocol: restJson1
        method: "POST"
        uri: "/OperationWithDefaults"
        headers: { "Content-Type": "application/json" }
        body: """
            {
                "defaults": {
                    "defaultString": "bye",
                    "defaultBoolean": true,
                    "defaultList": ["a"],
                    "defaultTimestamp": 1,
                    "defaultBlob": "aGk=",
                    "defaultByte": 2,
                    "defaultShort": 2,
                    "defaultInteger": 20,
                    "defaultLong": 200,
                    "defaultMap": { "name": "Jack" },
                    "defaultEnum": "BAR",
                    "defaultIntEnum": 2,
                    "emptyString": "foo",
                    "falseBoolean": true,
                    "emptyBlob": "aGk=",
                    "zeroByte": 1,
                    "zeroShort": 1,
                    "zeroInteger": 1,
                    "zeroLong": 1
                },
                "topLevelDefault": "hi",
                "otherTopLevelDefault": 0
            }"""
        bodyMediaType: "application/json"
        params: {
            defaults: {
                defaultString: "bye"
                defaultBoolean: true
                defaultList: ["a"]
                defaultTimestamp: 1
                defaultBlob: "hi"
                defaultByte: 2
                defaultShort: 2
                defaultInteger: 20
                defaultLong: 200
                defaultMap: { name: "Jack" }
                defaultEnum: "BAR"
                defaultIntEnum: 2
                emptyString: "foo"
                falseBoolean: true
                emptyBlob: "hi"
                zeroByte: 1
                zeroShort: 1
                zeroInteger: 1
                zeroLong: 1
            }
        }
    }
    {
        id: "RestJsonClientUsesExplicitlyProvidedValuesInTopLevel"
        documentation: "What is given at the top is written, also where it is the default."
        protocol: restJson1
        method: "POST"
        uri: "/OperationWithDefaults"
        headers: { "Content-Type": "application/json" }
        body: """
            { "topLevelDefault": "hi", "otherTopLevelDefault": 0 }"""
        bodyMediaType: "application/json"
        params: { topLevelDefault: "hi", otherTopLevelDefault: 0 }
    }
])

apply OperationWithDefaults @httpResponseTests([
    {
        id: "RestJsonClientIgnoresDefaultValuesIfMemberValuesArePresentInResponse"
        documentation: "What a response has goes before the defaults."
        protocol: restJson1
        code: 200
        headers: { "Content-Type": "application/json" }
        body: """
            {
                "defaultString": "bye",
                "defaultBoolean": false,
                "defaultList": ["a"],
                "defaultTimestamp": 2,
                "defaultBlob": "aGk=",
                "defaultByte": 2,
                "defaultShort": 2,
                "defaultInteger": 20,
                "defaultLong": 200,
                "defaultMap": { "name": "Jack" },
                "defaultEnum": "BAR",
                "defaultIntEnum": 2,
                "emptyString": "foo",
                "falseBoolean": true,
                "emptyBlob": "aGk=",
                "zeroByte": 1,
                "zeroShort": 1,
                "zeroInteger": 1,
                "zeroLong": 1
            }"""
        bodyMediaType: "application/json"
        params: {
            defaultString: "bye"
            defaultBoolean: false
            defaultList: ["a"]
            defaultTimestamp: 2
            defaultBlob: "hi"
            defaultByte: 2
            defaultShort: 2
            defaultInteger: 20
            defaultLong: 200
            defaultMap: { name: "Jack" }
            defaultEnum: "BAR"
            defaultIntEnum: 2
            emptyString: "foo"
            falseBoolean: true
            emptyBlob: "hi"
            zeroByte: 1
            zeroShort: 1
            zeroInteger: 1
            zeroLong: 1
        }
    }
    {
        id: "RestJsonServerPopulatesDefaultsInResponseWhenMissingInParams"
        documentation: "A response has the defaults of the members that aren't given."
        protocol: restJson1
        code: 200
        headers: { "Content-Type": "application/json" }
        body: """
            {
                "defaultString": "hi",
                "defaultBoolean": true,
                "defaultList": [],
                "defaultTimestamp": 0,
                "defaultBlob": "YWJj",
                "defaultByte": 1,
                "defaultShort": 1,
                "defaultInteger": 10,
                "defaultLong": 100,
                "defaultMap": {},
                "defaultEnum": "FOO",
                "defaultIntEnum": 1,
                "emptyString": "",
                "falseBoolean": false,
                "emptyBlob": "",
                "zeroByte": 0,
                "zeroShort": 0,
                "zeroInteger": 0,
                "zeroLong": 0
            }"""
        bodyMediaType: "application/json"
        params: {}
    }
])

@http(method: "POST", uri: "/OperationWithNestedStructure")
operation OperationWithNestedStructure {
    input := {
        @required
        topLevel: TopLevel
    }

    output := with [DialogMembers] {}
}

structure TopLevel with [DialogMembers] {}

@mixin
structure DialogMembers {
    @required
    dialog: Dialog

    dialogList: DialogList = []

    dialogMap: DialogMap = {}
}

structure Dialog {
    language: String
    greeting: String = "hi"
    farewell: Farewell
}

structure Farewell {
    phrase: String = "bye"
}

list DialogList {
    member: Dialog
}

map DialogMap {
    key: String
    value: Dialog
}

apply OperationWithNestedStructure @httpRequestTests([
    {
        id: "RestJsonClientPopulatesNestedDefaultValuesWhenMissing"
        documentation: "Defaults are written in structures within lists, maps and structures."
        protocol: restJson1
        method: "POST"
        uri: "/OperationWithNestedStructure"
        headers: { "Content-Type": "application/json" }
        body: """
            {
                "topLevel": {
                    "dialog": { "language": "en", "greeting": "hi" },
                    "dialogList": [
                        { "greeting": "hi" },
                        { "greeting": "hi", "farewell": { "phrase": "bye" } },
                        { "language": "it", "greeting": "ciao", "farewell": { "phrase": "arrivederci" } }
                    ],
                    "dialogMap": {
                        "emptyDialog": { "greeting": "hi" },
                        "partialEmptyDialog": { "language": "en", "greeting": "hi", "farewell": { "phrase": "bye" } },
                        "nonEmptyDialog": { "greeting": "konnichiwa", "farewell": { "phrase": "sayonara" } }
                    }
                }
            }"""
        bodyMediaType: "application/json"
        params: {
            topLevel: {
                dialog: { language: "en" }
                dialogList: [
                    {}
                    { farewell: {} }
                    { language: "it", greeting: "ciao", farewell: { phrase: "arrivederci" } }
                ]
                dialogMap: {
                    emptyDialog: {}
                    partialEmptyDialog: { language: "en", farewell: {} }
                    nonEmptyDialog: { greeting: "konnichiwa", farewell: { phrase: "sayonara" } }
                }
            }
        }
    }
])

apply OperationWithNestedStructure @httpResponseTests([
    {
        id: "RestJsonServerPopulatesNestedDefaultValuesWhenMissingInInResponseParams"
        documentation: "A response has the defaults of nested structures, and the empty list and map that are defaults."
        protocol: restJson1
        code: 200
        headers: { "Content-Type": "application/json" }
        body: """
            {
                "dialog": { "language": "en", "greeting": "hi", "farewell": { "phrase": "bye" } },
                "dialogList": [],
                "dialogMap": {}
            }"""
        bodyMediaType: "application/json"
        params: { dialog: { language: "en", farewell: {} } }
    }
])

@http(method: "POST", uri: "/DefaultsOfBoundMembers")
operation DefaultsOfBoundMembers {
    input := {
        @httpHeader("X-Level")
        level: Integer = 1

        @httpQuery("mode")
        mode: String = "fast"

        note: String = "none"
    }

    output := {
        @httpHeader("X-Level")
        level: Integer = 1

        note: String = "none"
    }
}

apply DefaultsOfBoundMembers @httpRequestTests([
    {
        id: "RestJsonDefaultsOfBoundMembersAreNotPopulated"
        documentation: "A member that stands outside of the document stays absent, whatever its default is."
        tags: ["own"]
        protocol: restJson1
        method: "POST"
        uri: "/DefaultsOfBoundMembers"
        headers: { "Content-Type": "application/json" }
        forbidHeaders: ["X-Level"]
        forbidQueryParams: ["mode"]
        body: """
            { "note": "none" }"""
        bodyMediaType: "application/json"
        params: {}
    }
    {
        id: "RestJsonBoundMembersEqualToTheirDefaults"
        documentation: "A member that is given is written, also where it is the default."
        tags: ["own"]
        protocol: restJson1
        method: "POST"
        uri: "/DefaultsOfBoundMembers"
        queryParams: ["mode=fast"]
        headers: { "Content-Type": "application/json", "X-Level": "1" }
        body: """
            { "note": "none" }"""
        bodyMediaType: "application/json"
        params: { level: 1, mode: "fast", note: "none" }
    }
])

apply DefaultsOfBoundMembers @httpResponseTests([
    {
        id: "RestJsonDefaultsOfBoundMembersAreNotPopulated"
        documentation: "A member that stands outside of the document stays absent, whatever its default is."
        tags: ["own"]
        protocol: restJson1
        code: 200
        headers: { "Content-Type": "application/json" }
        forbidHeaders: ["X-Level"]
        body: """
            { "note": "none" }"""
        bodyMediaType: "application/json"
        params: {}
    }
])
