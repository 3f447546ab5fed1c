$version: "2.0"

// AWS JSON 1.0 (Smithy 2.0, "AWS JSON 1.0 protocol", "default trait"): members with defaults, at the top and below it.
namespace aws.protocoltests.json10.defaults

use aws.protocols#awsJson1_0
use smithy.test#httpRequestTests
use smithy.test#httpResponseTests

@awsJson1_0
service JsonRpc10 {
    version: "2020-07-14"
    operations: [
        OperationWithDefaults
        OperationWithNestedStructure
    ]
}

operation OperationWithDefaults {
    input := {
        defaults: Defaults
        topLevelDefault: String = "hi"
        otherTopLevelDefault: Integer = 0
    }

    output := with [DefaultMembers] {}
}

structure Defaults with [DefaultMembers] {}

@mixin
structure DefaultMembers {
    defaultString: String = "hi"
    defaultBoolean: Boolean = true
    defaultList: TestStringList = []
    defaultTimestamp: Timestamp = 0
    defaultBlob: Blob = "YWJj"
    defaultByte: Byte = 1
    defaultShort: Short = 1
    defaultInteger: Integer = 10
    defaultLong: Long = 100
    defaultMap: TestStringMap = {}
    defaultEnum: TestEnum = "FOO"
    defaultIntEnum: TestIntEnum = 1
    emptyString: String = ""
    falseBoolean: Boolean = false
    emptyBlob: Blob = ""
    zeroByte: Byte = 0
    zeroShort: Short = 0
    zeroInteger: Integer = 0
    zeroLong: Long = 0
}

list TestStringList {
    member: String
}

map TestStringMap {
    key: String
    value: String
}

enum TestEnum {
    FOO
    BAR
    BAZ
}

intEnum TestIntEnum {
    ONE = 1
    TWO = 2
}

apply OperationWithDefaults @httpRequestTests([
    {
        id: "AwsJson10ClientPopulatesDefaultValuesInInputAndTopLevel"
        documentation: "Members that are absent are written with their defaults, below the top and at the top."
        tags: ["changed"]
        protocol: awsJson1_0
        method: "POST"
        uri: "/"
        headers: { "Content-Type": "application/x-amz-json-1.0", "X-Amz-Target": "JsonRpc10.OperationWithDefaults" }
        body: """
            {
                "defaults": {
                    "defaultString": "hi",
                    "defaultBoolean": true,
                    "defaultList": [],
                    "defaultTimestamp": 0,
                    "defaultBlob": "YWJj",
                    "defaultByte": 1,
                    "defaultShort": 1,
                    "defaultInteger": 10,
                    "defaultLong": 100,
                    "defaultMap": {},
                    "defaultEnum": "FOO",
                    "defaultIntEnum": 1,
                    "emptyString": "",
                    "falseBoolean": false,
                    "emptyBlob": "",
                    "zeroByte": 0,
                    "zeroShort": 0,
                    "zeroInteger": 0,
                    "zeroLong": 0
                },
                "topLevelDefault": "hi",
                "otherTopLevelDefault": 0
            }"""
        bodyMediaType: "application/json"
        params: { defaults: {} }
    }
    {
        id: "AwsJson10PopulatesTopLevelDefaultValuesInInput"
        documentation: "A structure that is absent stays so; the defaults at the top are written."
        tags: ["own"]
        protocol: awsJson1_0
        method: "POST"
        uri: "/"
        headers: { "Content-Type": "application/x-amz-json-1.0", "X-Amz-Target": "JsonRpc10.OperationWithDefaults" }
        body: """
            { "topLevelDefault": "hi", "otherTopLevelDefault": 0 }"""
        bodyMediaType: "application/json"
        params: {}
    }
    {
        id: "AwsJson10ClientUsesExplicitlyProvidedMemberValuesOverDefaultsWithTopLevel"
        documentation: "What is given goes before the defaults."
        tags: ["changed"]
        protocol: awsJson1_0
        method: "POST"
        uri: "/"
        headers: { "Content-Type": "application/x-amz-json-1.0", "X-Amz-Target": "JsonRpc10.OperationWithDefaults" }
        body: """
            {
                "defaults": {
                    "defaultString": "bye",
                    "defaultBoolean": true,
                    "defaultList": ["a"],
                    "defaultTimestamp": 1,
                    "defaultBlob": "aGk=",
                    "defaultByte": 2,
                    "defaultShort": 2,
                    "defaultInteger": 20,
                    "defaultLong": 200,
                    "defaultMap": { "name": "Jack" },
                    "defaultEnum": "BAR",
                    "defaultIntEnum": 2,
                    "emptyString": "foo",
                    "falseBoolean": true,
                    "emptyBlob": "aGk=",
                    "zeroByte": 1,
                    "zeroShort": 1,
                    "zeroInteger": 1,
                    "zeroLong": 1
                },
                "topLevelDefault": "hi",
                "otherTopLevelDefault": 0
            }"""
        bodyMediaType: "application/json"
        params: {
            defaults: {
                defaultString: "bye"
                defaultBoolean: true
                defaultList: ["a"]
                defaultTimestamp: 1
                defaultBlob: "hi"
                defaultByte: 2
                defaultShort: 2
                defaultInteger: 20
                defaultLong: 200
                defaultMap: { name: "Jack" }
                defaultEnum: "BAR"
                defaultIntEnum: 2
                emptyString: "foo"
                falseBoolean: true
                emptyBlob: "hi"
                zeroByte: 1
                zeroShort: 1
                zeroInteger: 1
                zeroLong: 1
            }
        }
    }
    {
        id: "AwsJson10ClientUsesExplicitlyProvidedValuesInTopLevel"
        documentation: "What is given at the top is written, also where it is the default."
        protocol: awsJson1_0
        method: "POST"
        uri: "/"
        headers: { "Content-Type": "application/x-amz-json-1.0", "X-Amz-Target": "JsonRpc10.OperationWithDefaults" }
        body: """
            { "topLevelDefault": "hi", "otherTopLevelDefault": 0 }"""
        bodyMediaType: "application/json"
        params: { topLevelDefault: "hi", otherTopLevelDefault: 0 }
    }
])

apply OperationWithDefaults @httpResponseTests([
    {
        id: "AwsJson10ClientIgnoresDefaultValuesIfMemberValuesArePresentInResponse"
        documentation: "What a response has goes before the defaults."
        protocol: awsJson1_0
        code: 200
        headers: { "Content-Type": "application/x-amz-json-1.0" }
        body: """
            {
                "defaultString": "bye",
                "defaultBoolean": false,
                "defaultList": ["a"],
                "defaultTimestamp": 2,
                "defaultBlob": "aGk=",
                "defaultByte": 2,
                "defaultShort": 2,
                "defaultInteger": 20,
                "defaultLong": 200,
                "defaultMap": { "name": "Jack" },
                "defaultEnum": "BAR",
                "defaultIntEnum": 2,
                "emptyString": "foo",
                "falseBoolean": true,
                "emptyBlob": "aGk=",
                "zeroByte": 1,
                "zeroShort": 1,
                "zeroInteger": 1,
                "zeroLong": 1
            }"""
        bodyMediaType: "application/json"
        params: {
            defaultString: "bye"
            defaultBoolean: false
            defaultList: ["a"]
            defaultTimestamp: 2
            defaultBlob: "hi"
            defaultByte: 2
            defaultShort: 2
            defaultInteger: 20
            defaultLong: 200
            defaultMap: { name: "Jack" }
            defaultEnum: "BAR"
            defaultIntEnum: 2
            emptyString: "foo"
            falseBoolean: true
            emptyBlob: "hi"
            zeroByte: 1
            zeroShort: 1
            zeroInteger: 1
            zeroLong: 1
        }
    }
    {
        id: "AwsJson10ServerPopulatesDefaultsInResponseWhenMissingInParams"
        documentation: "A response has the defaults of the members that aren't given."
        protocol: awsJson1_0
        code: 200
        headers: { "Content-Type": "application/x-amz-json-1.0" }
        body: """
            {
                "defaultString": "hi",
                "defaultBoolean": true,
                "defaultList": [],
                "defaultTimestamp": 0,
                "defaultBlob": "YWJj",
                "defaultByte": 1,
                "defaultShort": 1,
                "defaultInteger": 10,
                "defaultLong": 100,
                "defaultMap": {},
                "defaultEnum": "FOO",
                "defaultIntEnum": 1,
                "emptyString": "",
                "falseBoolean": false,
                "emptyBlob": "",
                "zeroByte": 0,
                "zeroShort": 0,
                "zeroInteger": 0,
                "zeroLong": 0
            }"""
        bodyMediaType: "application/json"
        params: {}
    }
])

operation OperationWithNestedStructure {
    input := {
        @required
        topLevel: TopLevel
    }

    output := with [DialogMembers] {}
}

structure TopLevel with [DialogMembers] {}

@mixin
structure DialogMembers {
    @required
    dialog: Dialog

    dialogList: DialogList = []

    dialogMap: DialogMap = {}
}

structure Dialog {
    language: String
    greeting: String = "hi"
    farewell: Farewell
}

structure Farewell {
    phrase: String = "bye"
}

list DialogList {
    member: Dialog
}

map DialogMap {
    key: String
    value: Dialog
}

apply OperationWithNestedStructure @httpRequestTests([
    {
        id: "AwsJson10ClientPopulatesNestedDefaultValuesWhenMissing"
        documentation: "Defaults are written in structures within lists, maps and structures."
        protocol: awsJson1_0
        method: "POST"
        uri: "/"
        headers: { "Content-Type": "application/x-amz-json-1.0", "X-Amz-Target": "JsonRpc10.OperationWithNestedStructure" }
        body: """
            {
                "topLevel": {
                    "dialog": { "language": "en", "greeting": "hi" },
                    "dialogList": [
                        { "greeting": "hi" },
                        { "greeting": "hi", "farewell": { "phrase": "bye" } },
                        { "language": "it", "greeting": "ciao", "farewell": { "phrase": "arrivederci" } }
                    ],
                    "dialogMap": {
                        "emptyDialog": { "greeting": "hi" },
                        "partialEmptyDialog": { "language": "en", "greeting": "hi", "farewell": { "phrase": "bye" } },
                        "nonEmptyDialog": { "greeting": "konnichiwa", "farewell": { "phrase": "sayonara" } }
                    }
                }
            }"""
        bodyMediaType: "application/json"
        params: {
            topLevel: {
                dialog: { language: "en" }
                dialogList: [
                    {}
                    { farewell: {} }
                    { language: "it", greeting: "ciao", farewell: { phrase: "arrivederci" } }
                ]
                dialogMap: {
                    emptyDialog: {}
                    partialEmptyDialog: { language: "en", farewell: {} }
                    nonEmptyDialog: { greeting: "konnichiwa", farewell: { phrase: "sayonara" } }
                }
            }
        }
    }
])

apply OperationWithNestedStructure @httpResponseTests([
    {
        id: "AwsJson10ServerPopulatesNestedDefaultValuesWhenMissingInInResponseParams"
        documentation: "A response has the defaults of nested structures, and the empty list and map that are defaults."
        protocol: awsJson1_0
        code: 200
        headers: { "Content-Type": "application/x-amz-json-1.0" }
        body: """
            {
                "dialog": { "language": "en", "greeting": "hi", "farewell": { "phrase": "bye" } },
                "dialogList": [],
                "dialogMap": {}
            }"""
        bodyMediaType: "application/json"
        params: { dialog: { language: "en", farewell: {} } }
    }
])
