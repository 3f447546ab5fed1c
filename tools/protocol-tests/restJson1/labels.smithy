$version: "2.0"

// AWS restJson1 (Smithy 2.0, "httpLabel trait", "http trait"): members in the path of a request.
namespace aws.protocoltests.restjson.labels

use aws.protocols#restJson1
use smithy.test#httpRequestTests

@restJson1
service RestJson {
    version: "2019-12-16"
    operations: [
        GreedyLabelBeforeLiteral
        HttpRequestWithEnumLabels
        HttpRequestWithGreedyLabelInPath
        HttpRequestWithLabels
        HttpRequestWithLabelsAndTimestampFormat
        HttpRequestWithRegexLiteral
    ]
}

@readonly
@http(method: "GET", uri: "/HttpRequestWithLabels/{string}/{short}/{integer}/{long}/{boolean}/{timestamp}")
operation HttpRequestWithLabels {
    input := {
        @required
        @httpLabel
        string: String

        @required
        @httpLabel
        short: Short

        @required
        @httpLabel
        integer: Integer

        @required
        @httpLabel
        long: Long

        /// Written as true and false.
        @required
        @httpLabel
        boolean: Boolean

        /// Written as a date-time.
        @required
        @httpLabel
        timestamp: Timestamp
    }
}

apply HttpRequestWithLabels @httpRequestTests([
    {
        id: "RestJsonInputWithHeadersAndAllParamsWithoutFloats"
        documentation: "Labels of every type. The colons of a date-time are escaped."
        tags: ["changed"]
        protocol: restJson1
        method: "GET"
        uri: "/HttpRequestWithLabels/string/1/2/3/true/2019-12-16T23%3A48%3A18Z"
        forbidHeaders: ["Content-Type"]
        body: ""
        params: { string: "string", short: 1, integer: 2, long: 3, boolean: true, timestamp: 1576540098 }
    }
    {
        id: "RestJsonHttpRequestLabelEscapingWithoutFloats"
        documentation: "Every byte of a label but letters, digits and four marks is escaped, as that of a letter of another script is."
        tags: ["changed"]
        protocol: restJson1
        method: "GET"
        uri: """
            /HttpRequestWithLabels\
            /%20%25%3A%2F%3F%23%5B%5D%40%21%24%26%27%28%29%2A%2B%2C%3B%3D%F0%9F%98%B9\
            /1/2/3/true/2019-12-16T23%3A48%3A18Z"""
        body: ""
        params: {
            string: " %:/?#[]@!$&'()*+,;=😹"
            short: 1
            integer: 2
            long: 3
            boolean: true
            timestamp: 1576540098
        }
    }
    {
        id: "RestJsonLabelsThatAreNotEscaped"
        documentation: "The four marks that aren't escaped; numbers below zero; a moment between two seconds."
        tags: ["own"]
        protocol: restJson1
        method: "GET"
        uri: "/HttpRequestWithLabels/-._~aZ09/-1/0/-9223372036854775808/false/1969-12-31T23%3A59%3A59.875Z"
        body: ""
        params: {
            string: "-._~aZ09"
            short: -1
            integer: 0
            long: -9223372036854775808
            boolean: false
            timestamp: -0.125
        }
    }
])

@readonly
@http(
    method: "GET"
    uri: """
        /HttpRequestWithLabelsAndTimestampFormat\
        /{memberEpochSeconds}/{memberHttpDate}/{memberDateTime}\
        /{defaultFormat}\
        /{targetEpochSeconds}/{targetHttpDate}/{targetDateTime}"""
)
operation HttpRequestWithLabelsAndTimestampFormat {
    input := {
        @required
        @httpLabel
        @timestampFormat("epoch-seconds")
        memberEpochSeconds: Timestamp

        @required
        @httpLabel
        @timestampFormat("http-date")
        memberHttpDate: Timestamp

        @required
        @httpLabel
        @timestampFormat("date-time")
        memberDateTime: Timestamp

        @required
        @httpLabel
        defaultFormat: Timestamp

        @required
        @httpLabel
        targetEpochSeconds: EpochSeconds

        @required
        @httpLabel
        targetHttpDate: HttpDate

        @required
        @httpLabel
        targetDateTime: DateTime
    }
}

@timestampFormat("date-time")
timestamp DateTime

@timestampFormat("epoch-seconds")
timestamp EpochSeconds

@timestampFormat("http-date")
timestamp HttpDate

apply HttpRequestWithLabelsAndTimestampFormat @httpRequestTests([
    {
        id: "RestJsonHttpRequestWithLabelsAndTimestampFormat"
        documentation: "The format is the member's, else its target's, else date-time."
        protocol: restJson1
        method: "GET"
        uri: """
            /HttpRequestWithLabelsAndTimestampFormat\
            /1576540098\
            /Mon%2C%2016%20Dec%202019%2023%3A48%3A18%20GMT\
            /2019-12-16T23%3A48%3A18Z\
            /2019-12-16T23%3A48%3A18Z\
            /1576540098\
            /Mon%2C%2016%20Dec%202019%2023%3A48%3A18%20GMT\
            /2019-12-16T23%3A48%3A18Z"""
        body: ""
        params: {
            memberEpochSeconds: 1576540098
            memberHttpDate: 1576540098
            memberDateTime: 1576540098
            defaultFormat: 1576540098
            targetEpochSeconds: 1576540098
            targetHttpDate: 1576540098
            targetDateTime: 1576540098
        }
    }
])

@readonly
@http(method: "GET", uri: "/HttpRequestWithEnumLabels/{enum}/{intEnum}/{byte}")
operation HttpRequestWithEnumLabels {
    input := {
        @required
        @httpLabel
        enum: Suit

        @required
        @httpLabel
        intEnum: Rank

        @required
        @httpLabel
        byte: Byte
    }
}

enum Suit {
    CLUB = "club ♣"
    DIAMOND = "diamond"
}

intEnum Rank {
    JACK = 11
    QUEEN = 12
}

apply HttpRequestWithEnumLabels @httpRequestTests([
    {
        id: "RestJsonHttpRequestWithEnumLabels"
        documentation: "An enum's value is escaped as a string is."
        tags: ["own"]
        protocol: restJson1
        method: "GET"
        uri: "/HttpRequestWithEnumLabels/club%20%E2%99%A3/12/-128"
        body: ""
        params: { enum: "club ♣", intEnum: 12, byte: -128 }
    }
])

@readonly
@http(method: "GET", uri: "/HttpRequestWithGreedyLabelInPath/foo/{foo}/baz/{baz+}")
operation HttpRequestWithGreedyLabelInPath {
    input := {
        @required
        @httpLabel
        foo: String

        @required
        @httpLabel
        baz: String
    }
}

apply HttpRequestWithGreedyLabelInPath @httpRequestTests([
    {
        id: "RestJsonHttpRequestWithGreedyLabelInPath"
        documentation: "A slash is escaped in a label, and stays in a greedy one."
        protocol: restJson1
        method: "GET"
        uri: "/HttpRequestWithGreedyLabelInPath/foo/hello%2Fescape/baz/there/guy"
        body: ""
        params: { foo: "hello/escape", baz: "there/guy" }
    }
])

@idempotent
@http(method: "DELETE", uri: "/buckets/{key+}/versions")
operation GreedyLabelBeforeLiteral {
    input := {
        @required
        @httpLabel
        key: String
    }
}

apply GreedyLabelBeforeLiteral @httpRequestTests([
    {
        id: "RestJsonGreedyLabelBeforeLiteral"
        documentation: "Literals may follow a greedy label; all but its slashes is escaped."
        tags: ["own"]
        protocol: restJson1
        method: "DELETE"
        uri: "/buckets/a%20b/c%25/versions/versions"
        body: ""
        params: { key: "a b/c%/versions" }
    }
])

@readonly
@http(method: "GET", uri: "/ReDosLiteral/{str}/(a+)+")
operation HttpRequestWithRegexLiteral {
    input := {
        @required
        @httpLabel
        str: String
    }
}

apply HttpRequestWithRegexLiteral @httpRequestTests([
    {
        id: "RestJsonToleratesRegexCharsInSegmentsEscaped"
        documentation: "Characters of a literal that mean something in patterns of text mean nothing; they are written escaped."
        tags: ["changed"]
        protocol: restJson1
        method: "GET"
        uri: "/ReDosLiteral/abc/%28a%2B%29%2B"
        body: ""
        params: { str: "abc" }
    }
])
