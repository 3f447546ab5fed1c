$version: "2.0"

// AWS restJson1 (Smithy 2.0, "httpHeader trait", "httpPrefixHeaders trait"): members in fields of the head, on both sides.
namespace aws.protocoltests.restjson.headers

use aws.protocols#restJson1
use smithy.test#httpRequestTests
use smithy.test#httpResponseTests

@restJson1
service RestJson {
    version: "2019-12-16"
    operations: [
        HeaderListsOfTimestamps
        HttpEmptyPrefixHeaders
        HttpPrefixHeaders
        HttpPrefixHeadersInResponse
        InputAndOutputWithHeaders
        NullAndEmptyHeadersClient
        TimestampFormatHeaders
    ]
}

/// Fields of every type, and lists of them. The body is empty: no member stands in it.
@http(method: "POST", uri: "/InputAndOutputWithHeaders")
operation InputAndOutputWithHeaders {
    input: InputAndOutputWithHeadersIO
    output: InputAndOutputWithHeadersIO
}

structure InputAndOutputWithHeadersIO {
    @httpHeader("X-String")
    headerString: String

    @httpHeader("X-Byte")
    headerByte: Byte

    @httpHeader("X-Short")
    headerShort: Short

    @httpHeader("X-Integer")
    headerInteger: Integer

    @httpHeader("X-Long")
    headerLong: Long

    @httpHeader("X-Boolean1")
    headerTrueBool: Boolean

    @httpHeader("X-Boolean2")
    headerFalseBool: Boolean

    @httpHeader("X-StringList")
    headerStringList: StringList

    @httpHeader("X-StringSet")
    headerStringSet: StringSet

    @httpHeader("X-IntegerList")
    headerIntegerList: IntegerList

    @httpHeader("X-BooleanList")
    headerBooleanList: BooleanList

    @httpHeader("X-TimestampList")
    headerTimestampList: TimestampList

    @httpHeader("X-Enum")
    headerEnum: FooEnum

    @httpHeader("X-EnumList")
    headerEnumList: FooEnumList

    @httpHeader("X-IntegerEnum")
    headerIntegerEnum: IntegerEnum

    @httpHeader("X-IntegerEnumList")
    headerIntegerEnumList: IntegerEnumList
}

list StringList {
    member: String
}

@uniqueItems
list StringSet {
    member: String
}

list IntegerList {
    member: Integer
}

list BooleanList {
    member: Boolean
}

list TimestampList {
    member: Timestamp
}

enum FooEnum {
    FOO = "Foo"
    BAZ = "Baz"
    BAR = "Bar"
    ONE = "1"
    ZERO = "0"
}

list FooEnumList {
    member: FooEnum
}

intEnum IntegerEnum {
    A = 1
    B = 2
    C = 3
}

list IntegerEnumList {
    member: IntegerEnum
}

apply InputAndOutputWithHeaders @httpRequestTests([
    {
        id: "RestJsonInputAndOutputWithStringHeaders"
        documentation: "Strings and lists of strings; a list is one field, its entries joined by a comma and a blank."
        protocol: restJson1
        method: "POST"
        uri: "/InputAndOutputWithHeaders"
        headers: { "X-String": "Hello", "X-StringList": "a, b, c", "X-StringSet": "a, b, c" }
        forbidHeaders: ["Content-Type", "X-Byte"]
        requireHeaders: ["Content-Length"]
        body: ""
        params: {
            headerString: "Hello"
            headerStringList: ["a", "b", "c"]
            headerStringSet: ["a", "b", "c"]
        }
    }
    {
        id: "RestJsonInputAndOutputWithQuotedStringHeaders"
        documentation: "Entries with commas or quotation marks stand between quotation marks."
        protocol: restJson1
        method: "POST"
        uri: "/InputAndOutputWithHeaders"
        headers: { "X-StringList": "\"b,c\", \"\\\"def\\\"\", a" }
        body: ""
        params: {
            headerStringList: ["b,c", "\"def\"", "a"]
        }
    }
    {
        id: "RestJsonInputWithEmptyAndEscapedEntries"
        documentation: "An entry of no characters stands between quotation marks; a backslash is escaped between them alone."
        tags: ["own"]
        protocol: restJson1
        method: "POST"
        uri: "/InputAndOutputWithHeaders"
        headers: { "X-StringList": "\"\", a\\b, \"a\\\\,b\", a b" }
        body: ""
        params: {
            headerStringList: ["", "a\\b", "a\\,b", "a b"]
        }
    }
    {
        id: "RestJsonInputAndOutputWithNumericHeadersWithoutFloats"
        documentation: "Whole numbers are decimal."
        tags: ["changed"]
        protocol: restJson1
        method: "POST"
        uri: "/InputAndOutputWithHeaders"
        headers: {
            "X-Byte": "1"
            "X-Short": "123"
            "X-Integer": "123"
            "X-Long": "123"
            "X-IntegerList": "1, 2, 3"
        }
        body: ""
        params: {
            headerByte: 1
            headerShort: 123
            headerInteger: 123
            headerLong: 123
            headerIntegerList: [1, 2, 3]
        }
    }
    {
        id: "RestJsonInputWithLeastNumbersInHeaders"
        documentation: "The least numbers of each width."
        tags: ["own"]
        protocol: restJson1
        method: "POST"
        uri: "/InputAndOutputWithHeaders"
        headers: {
            "X-Byte": "-128"
            "X-Short": "-32768"
            "X-Integer": "-2147483648"
            "X-Long": "-9223372036854775808"
            "X-IntegerList": "0, -1"
        }
        body: ""
        params: {
            headerByte: -128
            headerShort: -32768
            headerInteger: -2147483648
            headerLong: -9223372036854775808
            headerIntegerList: [0, -1]
        }
    }
    {
        id: "RestJsonInputAndOutputWithBooleanHeaders"
        documentation: "Truth values are true and false."
        protocol: restJson1
        method: "POST"
        uri: "/InputAndOutputWithHeaders"
        headers: { "X-Boolean1": "true", "X-Boolean2": "false", "X-BooleanList": "true, false, true" }
        body: ""
        params: {
            headerTrueBool: true
            headerFalseBool: false
            headerBooleanList: [true, false, true]
        }
    }
    {
        id: "RestJsonInputAndOutputWithTimestampHeaders"
        documentation: "Timestamps in fields are http-dates, each with a comma of its own."
        protocol: restJson1
        method: "POST"
        uri: "/InputAndOutputWithHeaders"
        headers: { "X-TimestampList": "Mon, 16 Dec 2019 23:48:18 GMT, Mon, 16 Dec 2019 23:48:18 GMT" }
        body: ""
        params: {
            headerTimestampList: [1576540098, 1576540098]
        }
    }
    {
        id: "RestJsonInputAndOutputWithEnumHeaders"
        documentation: "Enums are their values."
        protocol: restJson1
        method: "POST"
        uri: "/InputAndOutputWithHeaders"
        headers: { "X-Enum": "Foo", "X-EnumList": "Foo, Bar, Baz" }
        body: ""
        params: {
            headerEnum: "Foo"
            headerEnumList: ["Foo", "Bar", "Baz"]
        }
    }
    {
        id: "RestJsonInputAndOutputWithIntEnumHeaders"
        documentation: "IntEnums are their numbers."
        protocol: restJson1
        method: "POST"
        uri: "/InputAndOutputWithHeaders"
        headers: { "X-IntegerEnum": "1", "X-IntegerEnumList": "1, 2, 3" }
        body: ""
        params: {
            headerIntegerEnum: 1
            headerIntegerEnumList: [1, 2, 3]
        }
    }
])

apply InputAndOutputWithHeaders @httpResponseTests([
    {
        id: "RestJsonInputAndOutputWithStringHeaders"
        documentation: "Strings and lists of strings."
        protocol: restJson1
        code: 200
        headers: { "X-String": "Hello", "X-StringList": "a, b, c", "X-StringSet": "a, b, c" }
        forbidHeaders: ["Content-Type", "X-Byte"]
        requireHeaders: ["Content-Length"]
        body: ""
        params: {
            headerString: "Hello"
            headerStringList: ["a", "b", "c"]
            headerStringSet: ["a", "b", "c"]
        }
    }
    {
        id: "RestJsonInputAndOutputWithQuotedStringHeaders"
        documentation: "Entries with commas or quotation marks stand between quotation marks."
        protocol: restJson1
        code: 200
        headers: { "X-StringList": "\"b,c\", \"\\\"def\\\"\", a" }
        body: ""
        params: {
            headerStringList: ["b,c", "\"def\"", "a"]
        }
    }
    {
        id: "RestJsonInputAndOutputWithNumericHeadersWithoutFloats"
        documentation: "Whole numbers are decimal."
        tags: ["changed"]
        protocol: restJson1
        code: 200
        headers: {
            "X-Byte": "1"
            "X-Short": "123"
            "X-Integer": "123"
            "X-Long": "123"
            "X-IntegerList": "1, 2, 3"
        }
        body: ""
        params: {
            headerByte: 1
            headerShort: 123
            headerInteger: 123
            headerLong: 123
            headerIntegerList: [1, 2, 3]
        }
    }
    {
        id: "RestJsonInputAndOutputWithBooleanHeaders"
        documentation: "Truth values are true and false."
        protocol: restJson1
        code: 200
        headers: { "X-Boolean1": "true", "X-Boolean2": "false", "X-BooleanList": "true, false, true" }
        body: ""
        params: {
            headerTrueBool: true
            headerFalseBool: false
            headerBooleanList: [true, false, true]
        }
    }
    {
        id: "RestJsonInputAndOutputWithTimestampHeaders"
        documentation: "Timestamps in fields are http-dates."
        protocol: restJson1
        code: 200
        headers: { "X-TimestampList": "Mon, 16 Dec 2019 23:48:18 GMT, Mon, 16 Dec 2019 23:48:18 GMT" }
        body: ""
        params: {
            headerTimestampList: [1576540098, 1576540098]
        }
    }
    {
        id: "RestJsonInputAndOutputWithEnumHeaders"
        documentation: "Enums are their values."
        protocol: restJson1
        code: 200
        headers: { "X-Enum": "Foo", "X-EnumList": "Foo, Bar, Baz" }
        body: ""
        params: {
            headerEnum: "Foo"
            headerEnumList: ["Foo", "Bar", "Baz"]
        }
    }
    {
        id: "RestJsonInputAndOutputWithIntEnumHeaders"
        documentation: "IntEnums are their numbers."
        protocol: restJson1
        code: 200
        headers: { "X-IntegerEnum": "1", "X-IntegerEnumList": "1, 2, 3" }
        body: ""
        params: {
            headerIntegerEnum: 1
            headerIntegerEnumList: [1, 2, 3]
        }
    }
])

@readonly
@http(method: "GET", uri: "/NullAndEmptyHeadersClient")
operation NullAndEmptyHeadersClient {
    input: NullAndEmptyHeadersIO
    output: NullAndEmptyHeadersIO
}

structure NullAndEmptyHeadersIO {
    @httpHeader("X-A")
    a: String

    @httpHeader("X-B")
    b: String

    @httpHeader("X-C")
    c: StringList
}

apply NullAndEmptyHeadersClient @httpRequestTests([
    {
        id: "RestJsonNullAndEmptyHeadersWithoutEmpty"
        documentation: "A member that is null or absent has no field."
        tags: ["changed"]
        protocol: restJson1
        method: "GET"
        uri: "/NullAndEmptyHeadersClient"
        forbidHeaders: ["X-A", "X-B", "X-C"]
        body: ""
        params: { a: null }
    }
])

apply NullAndEmptyHeadersClient @httpResponseTests([
    {
        id: "RestJsonNullAndEmptyHeadersWithoutEmpty"
        documentation: "A member that is null or absent has no field."
        tags: ["changed"]
        protocol: restJson1
        code: 200
        forbidHeaders: ["X-A", "X-B", "X-C"]
        body: ""
        params: { a: null }
    }
])

// Timestamps

@readonly
@http(method: "GET", uri: "/TimestampFormatHeaders")
operation TimestampFormatHeaders {
    input: TimestampFormatHeadersIO
    output: TimestampFormatHeadersIO
}

structure TimestampFormatHeadersIO {
    @httpHeader("X-memberEpochSeconds")
    @timestampFormat("epoch-seconds")
    memberEpochSeconds: Timestamp

    @httpHeader("X-memberHttpDate")
    @timestampFormat("http-date")
    memberHttpDate: Timestamp

    @httpHeader("X-memberDateTime")
    @timestampFormat("date-time")
    memberDateTime: Timestamp

    @httpHeader("X-defaultFormat")
    defaultFormat: Timestamp

    @httpHeader("X-targetEpochSeconds")
    targetEpochSeconds: EpochSeconds

    @httpHeader("X-targetHttpDate")
    targetHttpDate: HttpDate

    @httpHeader("X-targetDateTime")
    targetDateTime: DateTime
}

@timestampFormat("date-time")
timestamp DateTime

@timestampFormat("epoch-seconds")
timestamp EpochSeconds

@timestampFormat("http-date")
timestamp HttpDate

apply TimestampFormatHeaders @httpRequestTests([
    {
        id: "RestJsonTimestampFormatHeaders"
        documentation: "The format is the member's, else its target's, else http-date."
        protocol: restJson1
        method: "GET"
        uri: "/TimestampFormatHeaders"
        headers: {
            "X-memberEpochSeconds": "1576540098"
            "X-memberHttpDate": "Mon, 16 Dec 2019 23:48:18 GMT"
            "X-memberDateTime": "2019-12-16T23:48:18Z"
            "X-defaultFormat": "Mon, 16 Dec 2019 23:48:18 GMT"
            "X-targetEpochSeconds": "1576540098"
            "X-targetHttpDate": "Mon, 16 Dec 2019 23:48:18 GMT"
            "X-targetDateTime": "2019-12-16T23:48:18Z"
        }
        body: ""
        params: {
            memberEpochSeconds: 1576540098
            memberHttpDate: 1576540098
            memberDateTime: 1576540098
            defaultFormat: 1576540098
            targetEpochSeconds: 1576540098
            targetHttpDate: 1576540098
            targetDateTime: 1576540098
        }
    }
])

apply TimestampFormatHeaders @httpResponseTests([
    {
        id: "RestJsonTimestampFormatHeaders"
        documentation: "The format is the member's, else its target's, else http-date."
        protocol: restJson1
        code: 200
        headers: {
            "X-memberEpochSeconds": "1576540098"
            "X-memberHttpDate": "Mon, 16 Dec 2019 23:48:18 GMT"
            "X-memberDateTime": "2019-12-16T23:48:18Z"
            "X-defaultFormat": "Mon, 16 Dec 2019 23:48:18 GMT"
            "X-targetEpochSeconds": "1576540098"
            "X-targetHttpDate": "Mon, 16 Dec 2019 23:48:18 GMT"
            "X-targetDateTime": "2019-12-16T23:48:18Z"
        }
        body: ""
        params: {
            memberEpochSeconds: 1576540098
            memberHttpDate: 1576540098
            memberDateTime: 1576540098
            defaultFormat: 1576540098
            targetEpochSeconds: 1576540098
            targetHttpDate: 1576540098
            targetDateTime: 1576540098
        }
    }
])

@readonly
@http(method: "GET", uri: "/HeaderListsOfTimestamps")
operation HeaderListsOfTimestamps {
    input := {
        @required
        @httpHeader("X-DateTimes")
        dateTimes: DateTimeList

        @httpHeader("X-EpochSeconds")
        epochSeconds: EpochSecondsList

        @httpHeader("X-HttpDates")
        httpDates: HttpDateList
    }

    output := {
        @required
        @httpHeader("X-DateTimes")
        dateTimes: DateTimeList
    }
}

list DateTimeList {
    member: DateTime
}

list EpochSecondsList {
    member: EpochSeconds
}

list HttpDateList {
    member: HttpDate
}

apply HeaderListsOfTimestamps @httpRequestTests([
    {
        id: "RestJsonHeaderListsOfTimestamps"
        documentation: "Lists of timestamps whose targets have formats; fractions of a second where the format has them."
        tags: ["own"]
        protocol: restJson1
        method: "GET"
        uri: "/HeaderListsOfTimestamps"
        headers: {
            "X-DateTimes": "2019-12-16T23:48:18Z, 1970-01-01T00:00:00.250Z"
            "X-EpochSeconds": "1576540098, 0.25, 0"
            "X-HttpDates": "Mon, 16 Dec 2019 23:48:18 GMT, Thu, 01 Jan 1970 00:00:00 GMT"
        }
        body: ""
        params: {
            dateTimes: [1576540098, 0.25]
            epochSeconds: [1576540098, 0.25, 0]
            httpDates: [1576540098, 0]
        }
    }
])

apply HeaderListsOfTimestamps @httpResponseTests([
    {
        id: "RestJsonHeaderListsOfTimestamps"
        documentation: "A list of one entry."
        tags: ["own"]
        protocol: restJson1
        code: 200
        headers: { "X-DateTimes": "9999-12-31T23:59:59.999Z" }
        body: ""
        params: {
            dateTimes: [253402300799.999]
        }
    }
])

// Prefixes

@readonly
@http(method: "GET", uri: "/HttpPrefixHeaders")
operation HttpPrefixHeaders {
    input: HttpPrefixHeadersIO
    output: HttpPrefixHeadersIO
}

structure HttpPrefixHeadersIO {
    @httpHeader("X-Foo")
    foo: String

    @httpPrefixHeaders("X-Foo-")
    fooMap: StringMap
}

map StringMap {
    key: String
    value: String
}

apply HttpPrefixHeaders @httpRequestTests([
    {
        id: "RestJsonHttpPrefixHeadersArePresentInLowerCase"
        documentation: "Each entry of the map is a field, named by the prefix and the entry's key."
        tags: ["changed"]
        protocol: restJson1
        method: "GET"
        uri: "/HttpPrefixHeaders"
        headers: { "X-Foo": "Foo", "X-Foo-abc": "Abc value", "X-Foo-def": "Def value" }
        body: ""
        params: {
            foo: "Foo"
            fooMap: { abc: "Abc value", def: "Def value" }
        }
    }
    {
        id: "RestJsonHttpPrefixHeadersAreNotPresentWithoutMap"
        documentation: "A map that is absent has no field."
        tags: ["changed"]
        protocol: restJson1
        method: "GET"
        uri: "/HttpPrefixHeaders"
        headers: { "X-Foo": "Foo" }
        forbidHeaders: ["X-Foo-", "X-Foo-abc"]
        body: ""
        params: { foo: "Foo" }
    }
])

apply HttpPrefixHeaders @httpResponseTests([
    {
        id: "RestJsonHttpPrefixHeadersArePresentInLowerCase"
        documentation: "Each entry of the map is a field, named by the prefix and the entry's key."
        tags: ["changed"]
        protocol: restJson1
        code: 200
        headers: { "X-Foo": "Foo", "X-Foo-abc": "Abc value", "X-Foo-def": "Def value" }
        body: ""
        params: {
            foo: "Foo"
            fooMap: { abc: "Abc value", def: "Def value" }
        }
    }
])

@readonly
@http(method: "GET", uri: "/HttpPrefixHeadersResponse")
operation HttpPrefixHeadersInResponse {
    input := {}

    output := {
        @httpPrefixHeaders("")
        prefixHeaders: StringMap
    }
}

apply HttpPrefixHeadersInResponse @httpResponseTests([
    {
        id: "HttpPrefixHeadersResponseInLowerCase"
        documentation: "An empty prefix: the keys are the fields' names."
        tags: ["changed"]
        protocol: restJson1
        code: 200
        headers: { "X-Foo": "Foo", "Hello": "Hello" }
        body: ""
        params: {
            prefixHeaders: { "x-foo": "Foo", hello: "Hello" }
        }
    }
])

@readonly
@http(method: "GET", uri: "/HttpEmptyPrefixHeaders")
operation HttpEmptyPrefixHeaders {
    input: HttpEmptyPrefixHeadersIO
    output: HttpEmptyPrefixHeadersIO
}

structure HttpEmptyPrefixHeadersIO {
    @httpPrefixHeaders("")
    prefixHeaders: StringMap

    @httpHeader("hello")
    specificHeader: String
}

apply HttpEmptyPrefixHeaders @httpRequestTests([
    {
        id: "RestJsonHttpEmptyPrefixHeadersRequestWithoutBoundKey"
        documentation: "An empty prefix beside a field that is another member's."
        tags: ["changed"]
        protocol: restJson1
        method: "GET"
        uri: "/HttpEmptyPrefixHeaders"
        headers: { "x-foo": "Foo", "hello": "There" }
        body: ""
        params: {
            prefixHeaders: { "x-foo": "Foo" }
            specificHeader: "There"
        }
    }
])

apply HttpEmptyPrefixHeaders @httpResponseTests([
    {
        id: "RestJsonHttpEmptyPrefixHeadersResponseWithoutBoundKey"
        documentation: "An empty prefix beside a field that is another member's."
        tags: ["changed"]
        protocol: restJson1
        code: 200
        headers: { "x-foo": "Foo", "hello": "There" }
        body: ""
        params: {
            prefixHeaders: { "x-foo": "Foo" }
            specificHeader: "There"
        }
    }
])
