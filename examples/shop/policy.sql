PARAM Me INT;
PARAM Now INT;
PARAM NowHi INT;
CREATE VIEW MyRow AS SELECT id, name, admin FROM users WHERE id = ?Me;
CREATE VIEW OnSale AS SELECT id, name, available_on, discontinue_on, deleted_at FROM products
  WHERE deleted_at = 0 AND available_on <> 0 AND available_on <= ?NowHi
  AND discontinue_on >= ?Now; -- public
CREATE VIEW MyOrders AS SELECT id, user_id, state FROM orders
  WHERE user_id = ?Me AND user_id <> 0;
CREATE VIEW MyItems AS SELECT i.id, i.order_id, i.product_id, i.quantity FROM items i
  JOIN orders o ON o.id = i.order_id WHERE o.user_id = ?Me AND o.user_id <> 0;
CREATE VIEW Bought AS SELECT p.id, p.name FROM products p JOIN items i ON i.product_id = p.id
  JOIN orders o ON o.id = i.order_id WHERE o.user_id = ?Me AND o.user_id <> 0;
CREATE VIEW OrderComments AS SELECT c.id, c.target_type, c.target_id, c.body FROM comments c
  JOIN orders o ON o.id = c.target_id
  WHERE c.target_type = 'Order' AND o.user_id = ?Me AND o.user_id <> 0;
CREATE VIEW ProductComments AS SELECT c.id, c.target_type, c.target_id, c.body FROM comments c
  JOIN products p ON p.id = c.target_id WHERE c.target_type = 'Product' AND p.deleted_at = 0
  AND p.available_on <> 0 AND p.available_on <= ?NowHi AND p.discontinue_on >= ?Now; -- public
CREATE VIEW AdminOrders AS SELECT o.id, o.user_id, o.state FROM orders o, users u
  WHERE u.id = ?Me AND u.admin = 1; -- public to admins
