"""Operator's commands, each as its members; their references are given by number."""

from codes import day, reference


def participant(number, bic):
    return {"op": "participant", "ref": reference(number), "bic": bic}


def account(number, new):
    return {"op": "account", "ref": reference(number), "bic": new.owner, "account": new.code}


def security(number, isin):
    return {"op": "security", "ref": reference(number), "isin": isin, "kind": "UNIT"}


def issue(number, account, isin, quantity):
    return {"op": "issue", "ref": reference(number), "account": account.code, "isin": isin, "quantity": quantity}


def redeem(number, account, isin, quantity):
    return issue(number, account, isin, quantity) | {"op": "redeem"}


def pay_in(number, bic, euros):
    return {"op": "payin", "ref": reference(number), "bic": bic, "ccy": "EUR", "amount": 100 * euros}


def pay_out(number, bic, euros):
    return pay_in(number, bic, euros) | {"op": "payout"}


def run(number, settlement_day):
    return {"op": "run", "ref": reference(number), "day": day(settlement_day)}
