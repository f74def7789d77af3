"""The nine tables of TPC-C 5.11's clause 1.3, with their columns in the order of a dump, and the keys of clause 1.4."""

# The file that a dump of the table is, its name in SQL, of how many columns its key is, and its columns: name:type,
# where i is a whole number, m money (12 digits, 2 behind the point), r a rate (4 digits behind it), t a stamp and any
# other number a text of at most so many bytes. HISTORY has no key.
TABLES = [
    ("warehouse", "warehouse", 1, "w_id:i w_name:10 w_street_1:20 w_street_2:20 w_city:20 w_state:2 w_zip:9 w_tax:r w_ytd:m"),
    ("district", "district", 2, "d_w_id:i d_id:i d_name:10 d_street_1:20 d_street_2:20 d_city:20 d_state:2 d_zip:9 d_tax:r"
                                " d_ytd:m d_next_o_id:i"),
    ("customer", "customer", 3, "c_w_id:i c_d_id:i c_id:i c_first:16 c_middle:2 c_last:16 c_street_1:20 c_street_2:20"
                                " c_city:20 c_state:2 c_zip:9 c_phone:16 c_since:t c_credit:2 c_credit_lim:m c_discount:r"
                                " c_balance:m c_ytd_payment:m c_payment_cnt:i c_delivery_cnt:i c_data:500"),
    ("history", "history", 0, "h_c_id:i h_c_d_id:i h_c_w_id:i h_d_id:i h_w_id:i h_date:t h_amount:m h_data:24"),
    ("neworder", "new_order", 3, "no_w_id:i no_d_id:i no_o_id:i"),
    ("order", "orders", 3, "o_w_id:i o_d_id:i o_id:i o_c_id:i o_entry_d:t o_carrier_id:i o_ol_cnt:i o_all_local:i"),
    ("orderline", "order_line", 4, "ol_w_id:i ol_d_id:i ol_o_id:i ol_number:i ol_i_id:i ol_supply_w_id:i ol_delivery_d:t"
                                   " ol_quantity:i ol_amount:m ol_dist_info:24"),
    ("item", "item", 1, "i_id:i i_im_id:i i_name:24 i_price:m i_data:50"),
    ("stock", "stock", 2, "s_w_id:i s_i_id:i s_quantity:i s_dist_01:24 s_dist_02:24 s_dist_03:24 s_dist_04:24 s_dist_05:24"
                          " s_dist_06:24 s_dist_07:24 s_dist_08:24 s_dist_09:24 s_dist_10:24 s_ytd:i s_order_cnt:i"
                          " s_remote_cnt:i s_data:50"),
]
MAY_BE_NULL = ("o_carrier_id", "ol_delivery_d")


def columns(words):
    """Gives each column's name and type."""
    return [word.split(":") for word in words.split()]


def definition(name, keys, words, types):
    """Gives the statement that makes a table, with an engine's types of the five kinds: i, m, r, t and a text's."""
    parts = []
    for column, kind in columns(words):
        held = types[kind] if kind in types else types["text"].format(kind)
        parts.append(f"{column} {held}{'' if column in MAY_BE_NULL else ' not null'}")
    key = ", ".join(column for column, _ in columns(words)[:keys])
    return f"create table {name} ({', '.join(parts)}{f', primary key ({key})' * bool(keys)})"
