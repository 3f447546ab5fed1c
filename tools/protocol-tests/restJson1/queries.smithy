$version: "2.0"

// AWS restJson1 (Smithy 2.0, "httpQuery trait", "httpQueryParams trait", "http trait"): members in the query of a request.
namespace aws.protocoltests.restjson.queries

use aws.protocols#restJson1
use smithy.test#httpRequestTests
use smithy.test#httpResponseTests

@restJson1
service RestJson {
    version: "2019-12-16"
    operations: [
        AllQueryStringTypes
        ConstantAndVariableQueryString
        ConstantQueryString
        IgnoreQueryParamsInResponse
        OmitsNullSerializesEmptyString
        QueryIdempotencyTokenAutoFill
        QueryParamsAsStringListMap
        QueryParamsAsStringMapWithBody
        QueryPrecedence
        QueryTimestampFormats
    ]
}

@readonly
@http(method: "GET", uri: "/AllQueryStringTypesInput")
operation AllQueryStringTypes {
    input := {
        @httpQuery("String")
        queryString: String

        @httpQuery("StringList")
        queryStringList: StringList

        @httpQuery("StringSet")
        queryStringSet: StringSet

        @httpQuery("Byte")
        queryByte: Byte

        @httpQuery("Short")
        queryShort: Short

        @httpQuery("Integer")
        queryInteger: Integer

        @httpQuery("IntegerList")
        queryIntegerList: IntegerList

        @httpQuery("IntegerSet")
        queryIntegerSet: IntegerSet

        @httpQuery("Long")
        queryLong: Long

        @httpQuery("Boolean")
        queryBoolean: Boolean

        @httpQuery("BooleanList")
        queryBooleanList: BooleanList

        @httpQuery("Timestamp")
        queryTimestamp: Timestamp

        @httpQuery("TimestampList")
        queryTimestampList: TimestampList

        @httpQuery("Enum")
        queryEnum: FooEnum

        @httpQuery("EnumList")
        queryEnumList: FooEnumList

        @httpQuery("IntegerEnum")
        queryIntegerEnum: IntegerEnum

        @httpQuery("IntegerEnumList")
        queryIntegerEnumList: IntegerEnumList

        @httpQueryParams
        queryParamsMapOfStringList: StringListMap
    }
}

list StringList {
    member: String
}

@uniqueItems
list StringSet {
    member: String
}

list IntegerList {
    member: Integer
}

@uniqueItems
list IntegerSet {
    member: Integer
}

list BooleanList {
    member: Boolean
}

list TimestampList {
    member: Timestamp
}

enum FooEnum {
    FOO = "Foo"
    BAZ = "Baz"
    BAR = "Bar"
    ONE = "1"
    ZERO = "0"
}

list FooEnumList {
    member: FooEnum
}

intEnum IntegerEnum {
    A = 1
    B = 2
    C = 3
}

list IntegerEnumList {
    member: IntegerEnum
}

map StringMap {
    key: String
    value: String
}

map StringListMap {
    key: String
    value: StringList
}

apply AllQueryStringTypes @httpRequestTests([
    {
        id: "RestJsonAllQueryStringTypesWithoutFloats"
        documentation: "Pairs of every type; a list has a pair for each entry."
        tags: ["changed"]
        protocol: restJson1
        method: "GET"
        uri: "/AllQueryStringTypesInput"
        queryParams: [
            "String=Hello%20there"
            "StringList=a"
            "StringList=b"
            "StringList=c"
            "StringSet=a"
            "StringSet=b"
            "StringSet=c"
            "Byte=1"
            "Short=2"
            "Integer=3"
            "IntegerList=1"
            "IntegerList=2"
            "IntegerList=3"
            "IntegerSet=1"
            "IntegerSet=2"
            "IntegerSet=3"
            "Long=4"
            "Boolean=true"
            "BooleanList=true"
            "BooleanList=false"
            "BooleanList=true"
            "Timestamp=1970-01-01T00%3A00%3A01Z"
            "TimestampList=1970-01-01T00%3A00%3A01Z"
            "TimestampList=1970-01-01T00%3A00%3A02Z"
            "TimestampList=1970-01-01T00%3A00%3A03Z"
            "Enum=Foo"
            "EnumList=Foo"
            "EnumList=Baz"
            "EnumList=Bar"
            "IntegerEnum=1"
            "IntegerEnumList=1"
            "IntegerEnumList=2"
            "IntegerEnumList=3"
        ]
        body: ""
        params: {
            queryString: "Hello there"
            queryStringList: ["a", "b", "c"]
            queryStringSet: ["a", "b", "c"]
            queryByte: 1
            queryShort: 2
            queryInteger: 3
            queryIntegerList: [1, 2, 3]
            queryIntegerSet: [1, 2, 3]
            queryLong: 4
            queryBoolean: true
            queryBooleanList: [true, false, true]
            queryTimestamp: 1
            queryTimestampList: [1, 2, 3]
            queryEnum: "Foo"
            queryEnumList: ["Foo", "Baz", "Bar"]
            queryIntegerEnum: 1
            queryIntegerEnumList: [1, 2, 3]
        }
    }
    {
        id: "RestJsonQueryStringMap"
        documentation: "A map of the query has a pair for each entry."
        protocol: restJson1
        method: "GET"
        uri: "/AllQueryStringTypesInput"
        queryParams: ["QueryParamsStringKeyA=Foo", "QueryParamsStringKeyB=Bar"]
        requireQueryParams: ["QueryParamsStringKeyA", "QueryParamsStringKeyB"]
        forbidQueryParams: ["String", "queryParamsMapOfStringList"]
        body: ""
        params: {
            queryParamsMapOfStringList: {
                QueryParamsStringKeyA: ["Foo"]
                QueryParamsStringKeyB: ["Bar"]
            }
        }
    }
    {
        id: "RestJsonQueryStringEscaping"
        documentation: "Every byte of a value but letters, digits and four marks is escaped."
        protocol: restJson1
        method: "GET"
        uri: "/AllQueryStringTypesInput"
        queryParams: ["String=%20%25%3A%2F%3F%23%5B%5D%40%21%24%26%27%28%29%2A%2B%2C%3B%3D%F0%9F%98%B9"]
        body: ""
        params: { queryString: " %:/?#[]@!$&'()*+,;=😹" }
    }
    {
        id: "RestJsonQueryMapKeyEscaping"
        documentation: "Keys of a map are escaped as values are."
        tags: ["own"]
        protocol: restJson1
        method: "GET"
        uri: "/AllQueryStringTypesInput"
        queryParams: ["a%26b%3D=c%3Dd", "%C3%A9="]
        requireQueryParams: ["a%26b%3D"]
        forbidQueryParams: ["a&b="]
        body: ""
        params: {
            queryParamsMapOfStringList: {
                "a&b=": ["c=d"]
                "é": [""]
            }
        }
    }
    {
        id: "RestJsonZeroAndFalseQueryValues"
        documentation: "Zero and false are written; they aren't absent."
        protocol: restJson1
        method: "GET"
        uri: "/AllQueryStringTypesInput"
        queryParams: ["Integer=0", "Boolean=false"]
        forbidQueryParams: ["Long", "BooleanList"]
        body: ""
        params: { queryInteger: 0, queryBoolean: false }
    }
])

@readonly
@http(method: "GET", uri: "/ConstantQueryString/{hello}?foo=bar&hello")
operation ConstantQueryString {
    input := {
        @required
        @httpLabel
        hello: String
    }
}

apply ConstantQueryString @httpRequestTests([
    {
        id: "RestJsonConstantQueryString"
        documentation: "The query of the pattern is written as it is, with a value and without."
        protocol: restJson1
        method: "GET"
        uri: "/ConstantQueryString/hi"
        queryParams: ["foo=bar", "hello"]
        requireQueryParams: ["foo", "hello"]
        body: ""
        params: { hello: "hi" }
    }
])

@readonly
@http(method: "GET", uri: "/ConstantAndVariableQueryString?foo=bar")
operation ConstantAndVariableQueryString {
    input := {
        @httpQuery("baz")
        baz: String

        @httpQuery("maybeSet")
        maybeSet: String
    }
}

apply ConstantAndVariableQueryString @httpRequestTests([
    {
        id: "RestJsonConstantAndVariableQueryStringMissingOneValue"
        documentation: "The pattern's query beside a member's pair; a member that is absent has none."
        protocol: restJson1
        method: "GET"
        uri: "/ConstantAndVariableQueryString"
        queryParams: ["foo=bar", "baz=bam"]
        forbidQueryParams: ["maybeSet"]
        body: ""
        params: { baz: "bam" }
    }
    {
        id: "RestJsonConstantAndVariableQueryStringAllValues"
        documentation: "The pattern's query beside two members' pairs."
        protocol: restJson1
        method: "GET"
        uri: "/ConstantAndVariableQueryString"
        queryParams: ["foo=bar", "baz=bam", "maybeSet=yes"]
        body: ""
        params: { baz: "bam", maybeSet: "yes" }
    }
])

/// A response has no query: the member stands in the body.
@readonly
@http(method: "GET", uri: "/IgnoreQueryParamsInResponse")
operation IgnoreQueryParamsInResponse {
    output := {
        @httpQuery("baz")
        baz: String
    }
}

apply IgnoreQueryParamsInResponse @httpResponseTests([
    {
        id: "RestJsonIgnoreQueryParamsInResponse"
        documentation: "The query's binding says nothing of a response."
        protocol: restJson1
        code: 200
        headers: { "Content-Type": "application/json" }
        body: """
            { "baz": "bam" }"""
        bodyMediaType: "application/json"
        params: { baz: "bam" }
    }
])

@readonly
@http(method: "GET", uri: "/OmitsNullSerializesEmptyString")
operation OmitsNullSerializesEmptyString {
    input := {
        @httpQuery("Null")
        nullValue: String

        @httpQuery("Empty")
        emptyString: String
    }
}

apply OmitsNullSerializesEmptyString @httpRequestTests([
    {
        id: "RestJsonOmitsNullQuery"
        documentation: "A member that is null has no pair."
        protocol: restJson1
        method: "GET"
        uri: "/OmitsNullSerializesEmptyString"
        forbidQueryParams: ["Null"]
        body: ""
        params: { nullValue: null }
    }
    {
        id: "RestJsonSerializesEmptyQueryValue"
        documentation: "An empty string has a pair with nothing behind its equals sign."
        protocol: restJson1
        method: "GET"
        uri: "/OmitsNullSerializesEmptyString"
        queryParams: ["Empty="]
        forbidQueryParams: ["Null"]
        body: ""
        params: { emptyString: "" }
    }
])

@http(method: "POST", uri: "/QueryIdempotencyTokenAutoFill")
operation QueryIdempotencyTokenAutoFill {
    input := {
        @httpQuery("token")
        @idempotencyToken
        token: String
    }
}

apply QueryIdempotencyTokenAutoFill @httpRequestTests([
    {
        id: "RestJsonQueryIdempotencyTokenAutoFillIsSet"
        documentation: "A token that is given is written as any other string."
        protocol: restJson1
        method: "POST"
        uri: "/QueryIdempotencyTokenAutoFill"
        queryParams: ["token=00000000-0000-4000-8000-000000000000"]
        body: ""
        params: { token: "00000000-0000-4000-8000-000000000000" }
    }
    {
        id: "RestJsonQueryIdempotencyTokenIsNotFilled"
        documentation: "A token that is absent stays so: what isn't given isn't made up."
        tags: ["own"]
        protocol: restJson1
        method: "POST"
        uri: "/QueryIdempotencyTokenAutoFill"
        forbidQueryParams: ["token"]
        body: ""
        params: {}
    }
])

@http(method: "POST", uri: "/StringListMap")
operation QueryParamsAsStringListMap {
    input := {
        @httpQuery("corge")
        qux: String

        @httpQueryParams
        foo: StringListMap
    }
}

apply QueryParamsAsStringListMap @httpRequestTests([
    {
        id: "RestJsonQueryParamsStringListMap"
        documentation: "A map to lists has a pair for each entry of each list."
        protocol: restJson1
        method: "POST"
        uri: "/StringListMap"
        queryParams: ["corge=named", "baz=bar", "baz=qux"]
        body: ""
        params: {
            qux: "named"
            foo: { baz: ["bar", "qux"] }
        }
    }
])

@http(method: "POST", uri: "/Precedence")
operation QueryPrecedence {
    input := {
        @httpQuery("bar")
        foo: String

        @httpQueryParams
        baz: StringMap
    }
}

apply QueryPrecedence @httpRequestTests([
    {
        id: "RestJsonQueryPrecedenceWithoutBoundKey"
        documentation: "A member's pair beside those of a map."
        tags: ["changed"]
        protocol: restJson1
        method: "POST"
        uri: "/Precedence"
        queryParams: ["bar=named", "qux=alsoFromMap"]
        body: ""
        params: {
            foo: "named"
            baz: { qux: "alsoFromMap" }
        }
    }
])

@http(method: "POST", uri: "/QueryParamsAsStringMapWithBody?op=query")
operation QueryParamsAsStringMapWithBody {
    input := {
        @httpQueryParams
        params: StringMap

        @httpQuery("n")
        number: Integer

        note: String
    }

    output := {
        @httpQuery("n")
        number: Integer
    }
}

apply QueryParamsAsStringMapWithBody @httpRequestTests([
    {
        id: "RestJsonQueryParamsBesideBody"
        documentation: "A literal, a member's pair, a map's pairs, and a member in the body."
        tags: ["own"]
        protocol: restJson1
        method: "POST"
        uri: "/QueryParamsAsStringMapWithBody"
        queryParams: ["op=query", "n=-5", "a=1", "b="]
        headers: { "Content-Type": "application/json" }
        body: """
            { "note": "in the body" }"""
        bodyMediaType: "application/json"
        params: {
            params: { a: "1", b: "" }
            number: -5
            note: "in the body"
        }
    }
])

@readonly
@http(method: "GET", uri: "/QueryTimestampFormats")
operation QueryTimestampFormats {
    input := {
        @httpQuery("http")
        httpDate: HttpDate

        @httpQuery("epoch")
        @timestampFormat("epoch-seconds")
        epochSeconds: Timestamp

        @httpQuery("list")
        epochSecondsList: EpochSecondsList
    }
}

@timestampFormat("epoch-seconds")
timestamp EpochSeconds

@timestampFormat("http-date")
timestamp HttpDate

list EpochSecondsList {
    member: EpochSeconds
}

apply QueryTimestampFormats @httpRequestTests([
    {
        id: "RestJsonQueryTimestampFormats"
        documentation: "Timestamps of other formats than date-time, by themselves and in a list."
        tags: ["own"]
        protocol: restJson1
        method: "GET"
        uri: "/QueryTimestampFormats"
        queryParams: ["http=Mon%2C%2016%20Dec%202019%2023%3A48%3A18%20GMT", "epoch=-0.5", "list=0", "list=1576540098.001"]
        body: ""
        params: {
            httpDate: 1576540098
            epochSeconds: -0.5
            epochSecondsList: [0, 1576540098.001]
        }
    }
])
