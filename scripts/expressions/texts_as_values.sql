-- Texts as values of each type, with blanks, signs, leading zeros, edges and shortened words.
PREPARE a_smallint(smallint) AS SELECT $1; PREPARE a_integer(integer) AS SELECT $1; PREPARE a_bigint(bigint) AS SELECT $1;
PREPARE a_boolean(boolean) AS SELECT $1; PREPARE a_text(text) AS SELECT $1;
EXECUTE a_smallint('32767');
EXECUTE a_smallint('-32768');
EXECUTE a_smallint('32768');
EXECUTE a_smallint('-32769');
EXECUTE a_smallint(' 	
+7
 ');
EXECUTE a_smallint('x');
EXECUTE a_integer('2147483647');
EXECUTE a_integer('+2147483647');
EXECUTE a_integer('-2147483648');
EXECUTE a_integer('2147483648');
EXECUTE a_integer('-2147483649');
EXECUTE a_integer('99999999999999999999');
EXECUTE a_integer('007');
EXECUTE a_integer('-0');
EXECUTE a_integer('');
EXECUTE a_integer(' ');
EXECUTE a_integer('-');
EXECUTE a_integer('+-1');
EXECUTE a_integer('- 1');
EXECUTE a_integer('1 2');
EXECUTE a_integer('1.5');
EXECUTE a_integer('0x1');
EXECUTE a_integer('1_000');
EXECUTE a_integer('true');
EXECUTE a_integer('1');
EXECUTE a_integer(' 1');
EXECUTE a_integer('٣');
EXECUTE a_bigint('9223372036854775807');
EXECUTE a_bigint('-9223372036854775808');
EXECUTE a_bigint('9223372036854775808');
EXECUTE a_bigint('-9223372036854775809');
EXECUTE a_bigint('99999999999999999999x');
EXECUTE a_boolean('t');
EXECUTE a_boolean('tr');
EXECUTE a_boolean('tRu');
EXECUTE a_boolean(' true
');
EXECUTE a_boolean('y');
EXECUTE a_boolean('YE');
EXECUTE a_boolean('yes');
EXECUTE a_boolean('oN');
EXECUTE a_boolean('1');
EXECUTE a_boolean('f');
EXECUTE a_boolean('fals');
EXECUTE a_boolean('FALSE');
EXECUTE a_boolean('n');
EXECUTE a_boolean('No');
EXECUTE a_boolean('of');
EXECUTE a_boolean('OFF');
EXECUTE a_boolean('0');
EXECUTE a_boolean('');
EXECUTE a_boolean('o');
EXECUTE a_boolean('truest');
EXECUTE a_boolean('yess');
EXECUTE a_boolean('01');
EXECUTE a_boolean('falſe');
EXECUTE a_text('');
EXECUTE a_text('  a ');
EXECUTE a_text('é|😀');
-- Values as those of another type.
EXECUTE a_smallint(32767 + 0 * 2147483648);
EXECUTE a_smallint(32768);
EXECUTE a_smallint(-32769 + 0 * 2147483648);
EXECUTE a_integer(-2147483648 + 0 * 2147483648);
EXECUTE a_integer(2147483648);
EXECUTE a_bigint(-5);
EXECUTE a_text(-5);
EXECUTE a_text(-9223372036854775808);
EXECUTE a_boolean(1);
EXECUTE a_boolean(true);
EXECUTE a_text(true);
EXECUTE a_text(false);
EXECUTE a_smallint(true);
