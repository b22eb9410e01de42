# Sourced by the scripts that time requests: a web ACL of 160 rules with patterns, one without rules, and requests in the shape
# of real traffic.

# A bundle whose rule 159 answers with this code.
bundle() {
    awk -v code="$1" 'BEGIN {
        pattern[0] = "union[ +]+select"; pattern[1] = "<script[^>]*>"; pattern[2] = "/etc/(passwd|shadow)"
        pattern[3] = "sleep[(][0-9]+[)]"; pattern[4] = "waitfor +delay"; pattern[5] = "onerror *="
        field[0] = "{\"UriPath\":{}}"; field[1] = "{\"QueryString\":{}}"; field[2] = "{\"AllQueryArguments\":{}}"
        field[3] = "{\"SingleHeader\":{\"Name\":\"user-agent\"}}"; field[4] = "{\"Body\":{}}"
        transforms = "[{\"Priority\":0,\"Type\":\"URL_DECODE\"},{\"Priority\":1,\"Type\":\"LOWERCASE\"}]"
        account = "arn:aws:wafv2:us-east-1:111122223333:regional/webacl/w/1"
        printf "{\"WebACL\":{\"Name\":\"w\",\"ARN\":\"%s\",\"DefaultAction\":{\"Allow\":{}},\"Rules\":[", account
        for (i = 0; i < 160; i++)
            printf "%s{\"Name\":\"r%d\",\"Priority\":%d,\"Statement\":{\"RegexMatchStatement\":{\"RegexString\":\"%s%d\",\"FieldToMatch\":%s,\"TextTransformations\":%s}},\"Action\":{\"Block\":{\"CustomResponse\":{\"ResponseCode\":%d}}}}", (i ? "," : ""), i, i, pattern[i % 6], i, field[i % 5], transforms, (i == 159 ? code : 403)
        printf "]}}\n"
    }'
}

# A bundle without rules.
no_rules() {
    echo '{"WebACL":{"Name":"w","ARN":"arn:aws:wafv2:us-east-1:111122223333:regional/webacl/w/1","DefaultAction":{"Allow":{}},"Rules":[]}}'
}

# So many requests, one a line, one of ten a POST with a body.
request_lines() {
    awk -v count="$1" 'BEGIN {
        for (i = 0; i < 120; i++) body = body "bmFtZT12YWx1ZSZx"
        for (i = 0; i < count; i++) {
            method = (i % 10 == 0) ? "POST" : "GET"
            printf "{\"httpRequest\":{\"clientIp\":\"203.0.113.%d\",\"uri\":\"/shop/items/%d/details.html\",\"args\":\"page=%d&sort=price&q=blue%%20shoes\",\"httpMethod\":\"%s\",\"headers\":[{\"name\":\"Host\",\"value\":\"shop.example\"},{\"name\":\"User-Agent\",\"value\":\"Mozilla/5.0 (X11; Linux x86_64) AppleWebKit/537.36 (KHTML, like Gecko) Chrome/130.0 Safari/537.36\"},{\"name\":\"Accept\",\"value\":\"text/html,application/xhtml+xml\"},{\"name\":\"Cookie\",\"value\":\"sid=%d; theme=dark\"}]%s}}\n", i % 256, i, i % 50, method, i, (method == "POST" ? ",\"body\":\"" body "\"" : "")
        }
    }'
}

# The seconds that a command takes; its output goes to a file.
seconds() {
    local output="$1" begin end
    shift
    begin=$(date +%s.%N)
    "$@" >"$output"
    end=$(date +%s.%N)
    echo "scale=6; $end - $begin" | bc
}
