table stocks (symbol text, price int, key symbol); ready; put stocks ('IBM', 100); put stocks ('IBM', 101); show stocks;
