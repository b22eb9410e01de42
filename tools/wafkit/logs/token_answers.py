"""What a line tells of the tokens of Captcha and Challenge: by the request's own token, and by what came of it."""

from .record import REDACTED, object_of, text_of

COOKIE, HEADER = "aws-waf-token", "x-aws-waf-token"
RESPONSES = {"CAPTCHA": "captchaResponse", "CHALLENGE": "challengeResponse"}
# With these reasons a token is none, whatever its age may be.
NO_TOKEN = ("TOKEN_MISSING", "TOKEN_INVALID", "TOKEN_DOMAIN_MISMATCH")


def validity(question, record):
    """Returns whether the token of that kind and immunity time was valid, or None where the line doesn't say."""
    kind, seconds = question.key.split(" ")
    if has_no_token(record):
        return False
    response = object_of(record.value, RESPONSES[kind])
    reason = text_of(response, "failureReason")
    if reason in NO_TOKEN:
        return False
    age = age_of(response, record)
    if age is None or reason not in (None, "TOKEN_EXPIRED"):
        return None
    # The log tells whole seconds, so that within one of the limit both are possible.
    return None if abs(age - int(seconds)) <= 1 else age < int(seconds)


def age_of(response, record):
    """Returns how many seconds before the request the token was solved, or None."""
    solved, asked = response.get("solveTimestamp"), record.value.get("timestamp")
    if not isinstance(solved, int) or not isinstance(asked, int) or solved <= 0:
        return None
    return asked / 1000 - solved


def has_no_token(record):
    """Returns whether the request surely has no token: neither the cookie nor the header of one."""
    headers = record.headers()
    if headers is None:
        return False
    for name, value in headers:
        if name == HEADER or (name == "cookie" and (value is None or value == REDACTED or COOKIE in value)):
            return False
    return True
