"""TPC-C 5.11's transactions as a client carries them out: it reads a row, computes, and writes the row back. Amounts
and rates are exact decimals. Each function gives the transaction's reply as `oe_server` words it."""
from decimal import ROUND_HALF_UP, Decimal

CENT = Decimal("0.01")
DISTRICT = "where d_w_id = ? and d_id = ?"
STOCK = "where s_w_id = ? and s_i_id = ?"
CUSTOMER = "where c_w_id = ? and c_d_id = ? and c_id = ?"


def exact(value):
    """Reads an amount or a rate, which an engine may give as a text."""
    return Decimal(str(value))


def chosen(s, w, d, word):
    """Finds a customer's number by number or last name: the middle one by first name (clause 2.5.2.2)."""
    if word.isdigit():
        return int(word)
    found = s.rows("select c_id from customer where c_w_id = ? and c_d_id = ? and c_last = ? order by c_first, c_id",
                   w, d, word)
    return found[(len(found) + 1) // 2 - 1][0]


def payment(s, words):
    """Clause 2.5."""
    w, d, cw, cd = map(int, words[:4])
    amount, stamp = Decimal(words[5]), words[6]
    w_name, w_ytd = s.row("select w_name, w_ytd from warehouse where w_id = ?", w)
    s.run("update warehouse set w_ytd = ? where w_id = ?", exact(w_ytd) + amount, w)
    d_name, d_ytd = s.row(f"select d_name, d_ytd from district {DISTRICT}", w, d)
    s.run(f"update district set d_ytd = ? {DISTRICT}", exact(d_ytd) + amount, w, d)
    c = chosen(s, cw, cd, words[4])
    last, credit, balance, paid, count, data = s.row(
        f"select c_last, c_credit, c_balance, c_ytd_payment, c_payment_cnt, c_data from customer {CUSTOMER}", cw, cd, c)
    balance = exact(balance) - amount
    if credit == "BC":
        data = (f"{c} {cd} {cw} {d} {w} {amount:.2f}|" + data)[:500]
    s.run(f"update customer set c_balance = ?, c_ytd_payment = ?, c_payment_cnt = ?, c_data = ? {CUSTOMER}",
          balance, exact(paid) + amount, count + 1, data, cw, cd, c)
    s.run("insert into history values (?, ?, ?, ?, ?, ?, ?, ?)",
          c, cd, cw, d, w, stamp, amount, f"{w_name}    {d_name}")
    return f"payment {c} {last} {credit} {balance:.2f}"


def order_line(s, w, d, o, n, word):
    """One item of an order (clause 2.4.2.2): gives its amount and its part of the reply."""
    supply, item, quantity = map(int, word.split(":"))
    price, i_data = s.row("select i_price, i_data from item where i_id = ?", item)
    stock, info, ytd, count, remote, s_data = s.row(
        f"select s_quantity, s_dist_{d:02}, s_ytd, s_order_cnt, s_remote_cnt, s_data from stock {STOCK}", supply, item)
    stock = stock - quantity if stock >= quantity + 10 else stock - quantity + 91
    s.run(f"update stock set s_quantity = ?, s_ytd = ?, s_order_cnt = ?, s_remote_cnt = ? {STOCK}",
          stock, ytd + quantity, count + 1, remote + (supply != w), supply, item)
    amount = quantity * exact(price)
    s.run("insert into order_line values (?, ?, ?, ?, ?, ?, null, ?, ?, ?)",
          w, d, o, n, item, supply, quantity, amount, info)
    brand = "B" if "ORIGINAL" in i_data and "ORIGINAL" in s_data else "G"
    return amount, f"{brand}:{stock}:{amount:.2f}"


def new_order(s, words):
    """Clause 2.4."""
    w, d, c, stamp, items = int(words[0]), int(words[1]), int(words[2]), words[3], words[4:]
    (w_tax,) = s.row("select w_tax from warehouse where w_id = ?", w)
    d_tax, o = s.row(f"select d_tax, d_next_o_id from district {DISTRICT}", w, d)
    s.run(f"update district set d_next_o_id = ? {DISTRICT}", o + 1, w, d)
    discount, last, credit = s.row(f"select c_discount, c_last, c_credit from customer {CUSTOMER}", w, d, c)
    is_local = all(item.split(":")[0] == words[0] for item in items)
    s.run("insert into orders values (?, ?, ?, ?, ?, null, ?, ?)", w, d, o, c, stamp, len(items), int(is_local))
    s.run("insert into new_order values (?, ?, ?)", w, d, o)
    lines = [order_line(s, w, d, o, n, item) for n, item in enumerate(items, 1)]
    total = sum(amount for amount, _ in lines) * (1 - exact(discount)) * (1 + exact(w_tax) + exact(d_tax))
    total = total.quantize(CENT, ROUND_HALF_UP)
    return " ".join([f"neworder {o} {last} {credit} {total}"] + [text for _, text in lines])


def delivered(s, w, d, carrier, stamp):
    """Delivers the oldest order of a district (clause 2.7.4.2): gives its number, customer and sum."""
    (o,) = s.row("select min(no_o_id) from new_order where no_w_id = ? and no_d_id = ?", w, d)
    if o is None:
        # No order may come into the empty queue beside this transaction: it would be behind it, and committed before.
        s.run(f"update district set d_next_o_id = d_next_o_id {DISTRICT}", w, d)
        return None
    s.run("delete from new_order where no_w_id = ? and no_d_id = ? and no_o_id = ?", w, d, o)
    (c,) = s.row("select o_c_id from orders where o_w_id = ? and o_d_id = ? and o_id = ?", w, d, o)
    s.run("update orders set o_carrier_id = ? where o_w_id = ? and o_d_id = ? and o_id = ?", carrier, w, d, o)
    lines = "where ol_w_id = ? and ol_d_id = ? and ol_o_id = ?"
    s.run(f"update order_line set ol_delivery_d = ? {lines}", stamp, w, d, o)
    total = sum(exact(amount) for (amount,) in s.rows(f"select ol_amount from order_line {lines}", w, d, o))
    balance, count = s.row(f"select c_balance, c_delivery_cnt from customer {CUSTOMER}", w, d, c)
    s.run(f"update customer set c_balance = ?, c_delivery_cnt = ? {CUSTOMER}", exact(balance) + total, count + 1, w, d, c)
    return f"{o} {c} {total:.2f}"


def delivery(s, words):
    """Clause 2.7: of one district, or of a warehouse's ten."""
    w, carrier, stamp = int(words[0]), int(words[-2]), words[-1]
    if len(words) == 4:
        return f"delivery {delivered(s, w, int(words[1]), carrier, stamp) or 'skipped'}"
    done = ((d, delivered(s, w, d, carrier, stamp)) for d in range(1, 11))
    return " ".join(["deliveries", *(f"{d}:{(told or 'skipped').replace(' ', ':')}" for d, told in done)])


TRANSACTIONS = {"payment": payment, "neworder": new_order, "delivery": delivery}
