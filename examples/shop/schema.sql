CREATE TABLE users (id INT PRIMARY KEY, name TEXT NOT NULL, admin INT NOT NULL);
CREATE TABLE products (id INT PRIMARY KEY, name TEXT NOT NULL, available_on INT NOT NULL,
  discontinue_on INT NOT NULL, deleted_at INT NOT NULL);
CREATE TABLE orders (id INT PRIMARY KEY, user_id INT NOT NULL, token TEXT NOT NULL,
  state TEXT NOT NULL);
CREATE TABLE items (id INT PRIMARY KEY, order_id INT NOT NULL REFERENCES orders (id),
  product_id INT NOT NULL REFERENCES products (id), quantity INT NOT NULL);
CREATE TABLE comments (id INT PRIMARY KEY, target_type TEXT NOT NULL, target_id INT NOT NULL,
  body TEXT NOT NULL);
