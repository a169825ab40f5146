{ The unit and the archive, from Pascal: case M through each call, series that need no draw, leading zeros, codes, the
  remainder draw, last numbers and the change, other increments, a broker's book, merged lists, the circular's days,
  refusals. }
program dilbreth_test;

{$mode objfpc}
{$H+}

uses
  dilbreth;

const
  M = 'method,exercised,draw'#10'L,13,4855'#10'account,short'#10'1,5'#10'2,8'#10'3,2'#10'4,10'#10'5,11'#10;
  M_ASSIGNED = 'account,assigned'#10'1,0'#10'2,0'#10'3,0'#10'4,8'#10'5,5'#10;
  M_SPELLED = 'method,exercised,draw'#10'L,0013,0000004855'#10'account,short'#10
    + '0001,5'#10'0002,08'#10'03,002'#10'4,10'#10'0000000005,11'#10;
  ELEVEN = 'method,exercised,draw'#10'L,13,4855'#10'account,short'#10'00000000001,5'#10;
  A_CODED = 'method,exercised,draw'#10'W,175,1'#10'code,account,short'#10'10,500,60'#10'20,700,200'#10'30,100,95'#10;
  A_ASSIGNED = 'account,assigned'#10'500,35'#10'700,97'#10'100,43'#10;
  M_LASTS = 'method,exercised,draw'#10'L,13,4855'#10'account,last'#10'1,5'#10'2,13'#10'3,15'#10'4,25'#10'5,36'#10;
  A_LASTS = 'method,exercised,draw'#10'W,175,1'#10'code,account,last'#10'10,500,60'#10'20,700,260'#10'30,100,355'#10;
  M_DRAWN = 'method,exercised,draw'#10'R,13,53'#10'account,short'#10'1,5'#10'2,8'#10'3,2'#10'4,10'#10'5,11'#10;
  M_RANGES = 'account,first,last,first2,last2'#10'1,1,5,37,41'#10'2,6,13,42,49'#10'3,14,15,50,51'#10
    + '4,16,25,52,61'#10'5,26,36,62,72'#10;
  TENS = 'method,exercised,draw,increment'#10'W,65,340,10'#10'account,short'#10'1,60'#10'2,200'#10'3,95'#10;
  TENS_LASTS = 'method,exercised,draw,increment'#10'W,65,340,10'#10'account,last'#10'1,60'#10'2,260'#10'3,355'#10;
  TENS_ASSIGNED = 'account,assigned'#10'1,10'#10'2,40'#10'3,15'#10;
  AMOUNTS_OF_TENS: array[0..5] of LongWord = (10, 40, 15, 999, 999, 999);
  AMOUNTS_OF_A: array[0..5] of LongWord = (35, 97, 43, 999, 999, 999);
  AMOUNTS_OF_M: array[0..5] of LongWord = (0, 0, 0, 8, 5, 999);
  BOOK_ACCOUNTS: array[0..10] of LongWord = (1, 2, 1, 2, 3, 4, 5, 0, 6, 7, 8);
  BOOK_SHORTS: array[0..10] of LongWord = (3, 1, 5, 8, 2, 10, 11, 0, 60, 200, 95);
  AMOUNTS_OF_BOOK: array[0..11] of LongWord = (999, 999, 0, 0, 0, 8, 5, 999, 10, 40, 15, 999);
  FIRST_ACCOUNTS: array[0..2] of LongWord = (2, 5, 9);
  FIRST_SHORTS: array[0..2] of LongWord = (30, 8, 1);
  SECOND_ACCOUNTS: array[0..2] of LongWord = (1, 5, 7);
  SECOND_SHORTS: array[0..2] of LongWord = (4, 12, 20);
  MERGED_ACCOUNTS: array[0..5] of LongWord = (1, 2, 5, 7, 9, 999);
  MERGED_SHORTS: array[0..5] of LongWord = (4, 30, 20, 20, 1, 999);
  UNWRITTEN: array[0..5] of LongWord = (999, 999, 999, 999, 999, 999);

var
  wrong: Integer = 0;
  series, bytes: string;
  codes, accounts, numbers, amounts: array[0..5] of LongWord;
  method: Byte;
  exercised, draw, increment, form, total, further: LongWord;
  positions, written: SizeUInt;
  limit, long_after, short_after: LongWord;
  jobs: array[0..2] of dilbreth_job;
  many: array[0..DILBRETH_MOST_JOBS] of dilbreth_job;
  book_amounts: array[0..11] of LongWord;

procedure See(const what: string; holds: Boolean);
begin
  if holds then
    WriteLn(what, ': ok')
  else
  begin
    WriteLn(what, ': WRONG');
    Inc(wrong);
  end;
end;

{ The first bytes of the output. }
function First(count: SizeUInt): string;
begin
  First := Copy(bytes, 1, count);
end;

{ Reads a text into the lists; answers 0 or the number of the refusal. }
function ReadText(const text: string): LongWord;
begin
  FillDWord(codes, 6, 999);
  FillDWord(accounts, 6, 999);
  FillDWord(numbers, 6, 999);
  ReadText := dilbreth_read(PByte(text), Length(text), method, exercised, draw, increment, form, codes, 6, accounts,
    6, numbers, 6, positions);
end;

{ Changes a text, with an output of the length; answers 0 or the number of the refusal. }
function Change(const text: string; output_len: SizeUInt): LongWord;
begin
  bytes := StringOfChar('x', 100);
  written := 999;
  Change := dilbreth_change(PByte(text), Length(text), PByte(bytes), output_len, written);
end;

{ Allocates the first positions of M without a draw; answers 0 or the number of the refusal. }
function Undrawn(by: Byte; count: SizeUInt; s: LongWord): LongWord;
begin
  FillDWord(amounts, 6, 999);
  total := 999;
  further := 999;
  Undrawn := dilbreth_allocate(by, s, 0, DILBRETH_DEFAULT_INCREMENT, DILBRETH_SHORTS, codes, count, accounts, count,
    numbers, count, amounts, 6, total, further);
end;

{ A job that is not yet answered. }
function Job(first, count: LongWord; by: Byte; s, d, i: LongWord): dilbreth_job;
begin
  Job.first := first;
  Job.positions := count;
  Job.method := by;
  Job.exercised := s;
  Job.draw := d;
  Job.increment := i;
  Job.answer.refusal := 999;
  Job.answer.total := 998;
  Job.answer.further := 997;
end;

{ Whether a record is the job, but for this answer. }
function Answered(const found, given: dilbreth_job; refusal, t, f: LongWord): Boolean;
begin
  Answered := (found.first = given.first) and (found.positions = given.positions) and (found.method = given.method)
    and (found.exercised = given.exercised) and (found.draw = given.draw) and (found.increment = given.increment)
    and (found.answer.refusal = refusal) and (found.answer.total = t) and (found.answer.further = f);
end;

{ Allocates a book of three jobs, the first of which has fewer contracts than are exercised; answers 0 or the number of
  the refusal. }
function Book(length: SizeUInt): LongWord;
begin
  jobs[0] := Job(0, 2, DILBRETH_PRO_RATA, 5, 0, 25);
  jobs[1] := Job(2, 5, DILBRETH_LOTTERY, 13, 4855, 25);
  jobs[2] := Job(8, 3, DILBRETH_WHEEL, 65, 340, 10);
  FillDWord(book_amounts, 12, 999);
  Book := dilbreth_allocate_jobs(BOOK_ACCOUNTS, length, BOOK_SHORTS, length, jobs, 3, book_amounts, 12);
end;

{ The numbers that tests/c and rust/compare/tests/jobs.rs have too. }
procedure SeeLayout;
var
  at: PByte;
begin
  at := PByte(@jobs[0]);
  See('the layout of a job', (SizeOf(dilbreth_job) = 36) and (PByte(@jobs[0].first) - at = 0)
    and (PByte(@jobs[0].positions) - at = 4) and (PByte(@jobs[0].method) - at = 8)
    and (PByte(@jobs[0].exercised) - at = 12) and (PByte(@jobs[0].draw) - at = 16)
    and (PByte(@jobs[0].increment) - at = 20) and (PByte(@jobs[0].answer) - at = 24)
    and (PByte(@jobs[1]) - at = 36));
  at := PByte(@jobs[0].answer);
  See('the layout of a job''s answer', (SizeOf(dilbreth_job_answer) = 12) and (PByte(@jobs[0].answer.refusal) - at = 0)
    and (PByte(@jobs[0].answer.total) - at = 4) and (PByte(@jobs[0].answer.further) - at = 8));
end;

{ The book, one of its jobs alone, and refusals before any job. }
procedure SeeBook;
var
  at: Integer;
begin
  See('a book', (Book(11) = 0) and (CompareDWord(book_amounts, AMOUNTS_OF_BOOK, 12) = 0)
    and Answered(jobs[0], Job(0, 2, DILBRETH_PRO_RATA, 5, 0, 25), 9, 998, 997)
    and Answered(jobs[1], Job(2, 5, DILBRETH_LOTTERY, 13, 4855, 25), 0, 36, 18)
    and Answered(jobs[2], Job(8, 3, DILBRETH_WHEEL, 65, 340, 10), 0, 355, 7));
  See('jobs refuse 22 past the list', (Book(10) = 22) and (jobs[1].answer.refusal = 999)
    and (jobs[2].answer.refusal = 999) and (book_amounts[0] = 999)
    and (CompareDWord(book_amounts[0], book_amounts[1], 11) = 0));
  See('jobs from a part of the records', (dilbreth_allocate_jobs(BOOK_ACCOUNTS, 7, BOOK_SHORTS, 7, jobs[1], 1,
    book_amounts, 7) = 0) and (jobs[1].answer.total = 36) and (jobs[2].answer.refusal = 999)
    and (CompareDWord(book_amounts[2], AMOUNTS_OF_M, 5) = 0) and (book_amounts[7] = 999));
  See('jobs refuse 1', dilbreth_allocate_jobs(BOOK_ACCOUNTS, 11, BOOK_SHORTS, 10, jobs, 3, book_amounts, 12) = 1);
  See('jobs refuse 4', dilbreth_allocate_jobs(BOOK_ACCOUNTS, 11, BOOK_SHORTS, 11, jobs, 3, book_amounts, 10) = 4);
  for at := 0 to DILBRETH_MOST_JOBS do
    many[at] := Job(0, 0, Ord('X'), 0, 0, 0);
  See('jobs refuse 21', (dilbreth_allocate_jobs(BOOK_ACCOUNTS, 11, BOOK_SHORTS, 11, many, DILBRETH_MOST_JOBS + 1,
    book_amounts, 12) = 21) and (many[0].answer.refusal = 999));
  See('64 jobs of no method', (dilbreth_allocate_jobs(BOOK_ACCOUNTS, 11, BOOK_SHORTS, 11, many, DILBRETH_MOST_JOBS,
    book_amounts, 12) = 0) and (many[0].answer.refusal = 14) and (many[63].answer.refusal = 14)
    and (many[63].answer.total = 998) and (many[64].answer.refusal = 999));
end;

{ Merges the lists of two branches, the second with the first shorts of its own, into outputs of the lengths; answers 0
  or the number of the refusal. }
function Merge(second_shorts_len, accounts_len, shorts_len: SizeUInt): LongWord;
begin
  FillDWord(accounts, 6, 999);
  FillDWord(numbers, 6, 999);
  positions := 998;
  total := 997;
  Merge := dilbreth_merge(FIRST_ACCOUNTS, 3, FIRST_SHORTS, 3, SECOND_ACCOUNTS, 3, SECOND_SHORTS, second_shorts_len,
    accounts, accounts_len, numbers, shorts_len, positions, total);
end;

{ Whether a merge wrote nothing. }
function Unmerged: Boolean;
begin
  Unmerged := (CompareDWord(accounts, UNWRITTEN, 6) = 0) and (CompareDWord(numbers, UNWRITTEN, 6) = 0)
    and (positions = 998) and (total = 997);
end;

procedure SeeMerge;
begin
  See('merged lists', (Merge(3, 6, 5) = 0) and (positions = 5) and (total = 75)
    and (CompareDWord(accounts, MERGED_ACCOUNTS, 6) = 0) and (CompareDWord(numbers, MERGED_SHORTS, 6) = 0));
  See('a merged list is allocated', (dilbreth_allocate(DILBRETH_WHEEL, 75, 0, DILBRETH_DEFAULT_INCREMENT,
    DILBRETH_SHORTS, accounts, positions, accounts, positions, numbers, positions, amounts, 6, total, further) = 0)
    and (total = 75) and (CompareDWord(amounts, MERGED_SHORTS, 5) = 0));
  See('merge refuses 1', (Merge(2, 6, 6) = 1) and Unmerged);
  See('merge refuses 4 for the accounts', (Merge(3, 4, 6) = 4) and Unmerged);
  See('merge refuses 4 for the shorts', (Merge(3, 6, 4) = 4) and Unmerged);
  See('merge refuses 5 of the second list', (dilbreth_merge(FIRST_ACCOUNTS, 3, FIRST_SHORTS, 3, FIRST_SHORTS, 3,
    SECOND_SHORTS, 3, accounts, 6, numbers, 6, positions, total) = 5) and Unmerged);
  See('merge from parts of the lists', (dilbreth_merge(FIRST_ACCOUNTS[1], 2, FIRST_SHORTS[1], 2, SECOND_ACCOUNTS[2], 1,
    SECOND_SHORTS[2], 1, accounts[1], 3, numbers[2], 3, positions, total) = 0) and (positions = 3) and (total = 29)
    and (accounts[0] = 999) and (accounts[1] = 5) and (accounts[3] = 9) and (accounts[4] = 999)
    and (numbers[1] = 999) and (numbers[2] = 8) and (numbers[3] = 20) and (numbers[4] = 1) and (numbers[5] = 999));
end;

{ An investor's day; answers 0 or the number of the refusal. }
function Investor(day, opening_long, opening_short, opening_purchases, opening_sales, closing_purchases,
  closing_sales, s: LongWord): LongWord;
begin
  limit := 999;
  long_after := 998;
  short_after := 997;
  Investor := dilbreth_process_investor(day, opening_long, opening_short, opening_purchases, opening_sales,
    closing_purchases, closing_sales, s, limit, long_after, short_after);
end;

{ Whether the limit, long and short after the day are these. }
function After(l, long, short: LongWord): Boolean;
begin
  After := (limit = l) and (long_after = long) and (short_after = short);
end;

{ A market-maker's day; answers 0 or the number of the refusal. }
function MarketMaker(day, opening_long, opening_short, purchases, sales: LongWord): LongWord;
begin
  limit := 999;
  MarketMaker := dilbreth_process_market_maker(day, opening_long, opening_short, purchases, sales, limit);
end;

begin
  series := M;
  bytes := StringOfChar('x', 100);
  FillDWord(amounts, 6, 999);
  See('the version', dilbreth_archive_version = DILBRETH_VERSION);
  See('read', (ReadText(series) = 0)
    and (method = DILBRETH_LOTTERY) and (exercised = 13) and (draw = 4855)
    and (increment = DILBRETH_DEFAULT_INCREMENT) and (form = DILBRETH_SHORTS) and (positions = 5)
    and (codes[4] = 5) and (accounts[4] = 5) and (numbers[4] = 11)
    and (codes[5] = 999) and (accounts[5] = 999) and (numbers[5] = 999));
  See('allocate', (dilbreth_allocate(method, exercised, draw, increment, form, codes, 5, accounts, 5, numbers, 5,
    amounts, 6, total, further) = 0)
    and (total = 36) and (further = 18) and (CompareDWord(amounts, AMOUNTS_OF_M, 6) = 0));
  FillDWord(amounts, 6, 999);
  See('allocate a part of the lists', (dilbreth_allocate(DILBRETH_PRO_RATA, 23, 0, DILBRETH_DEFAULT_INCREMENT, form,
    codes, 0, accounts[1], 3, numbers[2], 3, amounts[3], 3, total, further) = 0)
    and (total = 23) and (amounts[2] = 999) and (CompareDWord(amounts[3], numbers[2], 3) = 0));
  total := 999;
  further := 998;
  See('allocate refuses 9', (dilbreth_allocate(DILBRETH_WHEEL, 37, 1, DILBRETH_DEFAULT_INCREMENT, form, codes, 5,
    accounts, 5, numbers, 5, amounts, 6, total, further) = 9) and (total = 999) and (further = 998));
  See('allocate a whole series of W without a draw', (Undrawn(DILBRETH_WHEEL, 5, 36) = 0)
    and (total = 36) and (further = 0) and (CompareDWord(amounts, numbers, 6) = 0));
  See('allocate a whole series of L without a draw', (Undrawn(DILBRETH_LOTTERY, 5, 36) = 0)
    and (total = 36) and (further = 0) and (CompareDWord(amounts, numbers, 6) = 0));
  See('allocate one position of L without a draw', (Undrawn(DILBRETH_LOTTERY, 1, 4) = 0)
    and (total = 5) and (further = 0) and (amounts[0] = 4) and (amounts[1] = 999));
  See('allocate refuses 10 for one position of W', (Undrawn(DILBRETH_WHEEL, 1, 4) = 10) and (amounts[0] = 999));
  See('write', (dilbreth_write(method, exercised, draw, increment, form, codes, 5, accounts, 5, numbers, 5,
    PByte(bytes), Length(bytes), written) = 0)
    and (First(written) = series) and (bytes[written + 1] = 'x'));
  See('read refuses 13 for eleven digits', (ReadText(ELEVEN) = 13) and (accounts[0] = 999) and (numbers[0] = 999));
  See('read leading zeros', (ReadText(M_SPELLED) = 0) and (exercised = 13) and (draw = 4855) and (positions = 5)
    and (accounts[0] = 1) and (numbers[2] = 2) and (accounts[4] = 5) and (accounts[5] = 999));
  bytes := StringOfChar('x', 100);
  See('write no leading zeros', (dilbreth_write(method, exercised, draw, increment, form, codes, 5, accounts, 5,
    numbers, 5, PByte(bytes), Length(bytes), written) = 0)
    and (First(written) = series) and (bytes[written + 1] = 'x'));
  See('respond', (dilbreth_respond(PByte(series), Length(series), PByte(bytes), Length(bytes), written) = 0)
    and (First(written) = M_ASSIGNED));
  See('read codes', (ReadText(A_CODED) = 0) and (method = DILBRETH_WHEEL) and (positions = 3)
    and (codes[2] = 30) and (accounts[2] = 100) and (numbers[2] = 95) and (codes[3] = 999));
  FillDWord(amounts, 6, 999);
  See('allocate by codes', (dilbreth_allocate(method, exercised, draw, increment, form, codes, 3, accounts, 3,
    numbers, 3, amounts, 6, total, further) = 0)
    and (total = 355) and (further = 7) and (CompareDWord(amounts, AMOUNTS_OF_A, 6) = 0));
  See('allocate refuses 1 for codes of another length under W', dilbreth_allocate(method, exercised, draw, increment,
    form, codes, 2, accounts, 3, numbers, 3, amounts, 6, total, further) = 1);
  See('allocate refuses 5 for accounts that fall under P', dilbreth_allocate(DILBRETH_PRO_RATA, exercised, draw,
    increment, form, codes, 2, accounts, 3, numbers, 3, amounts, 6, total, further) = 5);
  bytes := StringOfChar('x', 100);
  See('write codes', (dilbreth_write(method, exercised, draw, increment, form, codes, 3, accounts, 3, numbers, 3,
    PByte(bytes), Length(bytes), written) = 0)
    and (First(written) = A_CODED) and (bytes[written + 1] = 'x'));
  series := A_CODED;
  See('respond in code order', (dilbreth_respond(PByte(series), Length(series), PByte(bytes), Length(bytes),
    written) = 0) and (First(written) = A_ASSIGNED));
  See('read R', (ReadText(M_DRAWN) = 0) and (method = DILBRETH_REMAINDER_DRAW) and (draw = 53) and (positions = 5));
  FillDWord(amounts, 6, 999);
  See('allocate under R without a code', (dilbreth_allocate(DILBRETH_REMAINDER_DRAW, exercised, draw, increment, form,
    codes, 0, accounts, 5, numbers, 5, amounts, 6, total, further) = 0)
    and (total = 36) and (further = 18) and (CompareDWord(amounts, AMOUNTS_OF_M, 6) = 0));
  See('allocate a whole series of R', (Undrawn(DILBRETH_REMAINDER_DRAW, 5, 36) = 0)
    and (total = 36) and (further = 0) and (CompareDWord(amounts, numbers, 6) = 0));
  See('allocate one position of R', (Undrawn(DILBRETH_REMAINDER_DRAW, 1, 4) = 0)
    and (total = 5) and (further = 0) and (amounts[0] = 4) and (amounts[1] = 999));
  series := M_DRAWN;
  bytes := StringOfChar('x', 200);
  See('respond with the ranges', (dilbreth_respond(PByte(series), Length(series), PByte(bytes), Length(bytes),
    written) = 0) and (First(written) = M_ASSIGNED + M_RANGES) and (bytes[written + 1] = 'x'));
  See('read last numbers', (ReadText(M_LASTS) = 0) and (form = DILBRETH_LAST_NUMBERS) and (method = DILBRETH_LOTTERY)
    and (exercised = 13) and (draw = 4855) and (positions = 5) and (accounts[4] = 5) and (numbers[1] = 13)
    and (numbers[4] = 36) and (numbers[5] = 999));
  FillDWord(amounts, 6, 999);
  See('allocate by last numbers', (dilbreth_allocate(method, exercised, draw, increment, form, codes, 5, accounts, 5,
    numbers, 5, amounts, 6, total, further) = 0)
    and (total = 36) and (further = 18) and (CompareDWord(amounts, AMOUNTS_OF_M, 6) = 0));
  bytes := StringOfChar('x', 100);
  See('write last numbers', (dilbreth_write(method, exercised, draw, increment, form, codes, 5, accounts, 5, numbers,
    5, PByte(bytes), Length(bytes), written) = 0)
    and (First(written) = M_LASTS) and (bytes[written + 1] = 'x'));
  series := M_LASTS;
  See('respond to last numbers', (dilbreth_respond(PByte(series), Length(series), PByte(bytes), Length(bytes),
    written) = 0) and (First(written) = M_ASSIGNED));
  numbers[0] := 0;
  See('allocate refuses 20', dilbreth_allocate(method, exercised, draw, increment, 2, codes, 0, accounts, 5, numbers,
    5, amounts, 6, total, further) = 20);
  See('allocate refuses 6 in the form of shorts', dilbreth_allocate(method, exercised, draw, increment,
    DILBRETH_SHORTS, codes, 0, accounts, 5, numbers, 5, amounts, 6, total, further) = 6);
  See('change to shorts', (Change(M_LASTS, 100) = 0) and (First(written) = M) and (bytes[written + 1] = 'x'));
  See('change to last numbers', (Change(M, 100) = 0) and (First(written) = M_LASTS) and (bytes[written + 1] = 'x'));
  See('change with codes', (Change(A_CODED, 100) = 0) and (First(written) = A_LASTS));
  See('change with codes, back', (Change(A_LASTS, Length(A_CODED)) = 0) and (First(written) = A_CODED));
  See('change refuses 4', (Change(A_LASTS, Length(A_CODED) - 1) = 4) and (written = 999)
    and (bytes = StringOfChar('x', 100)));
  See('change refuses 13', (Change(ELEVEN, 100) = 13) and (written = 999) and (bytes = StringOfChar('x', 100)));
  { No two numbers of line 2 are equal, so each must reach its place. }
  See('read an increment', (ReadText(TENS) = 0) and (method = DILBRETH_WHEEL) and (exercised = 65) and (draw = 340)
    and (increment = 10) and (form = DILBRETH_SHORTS) and (positions = 3) and (numbers[2] = 95));
  FillDWord(amounts, 6, 999);
  See('allocate by tens', (dilbreth_allocate(method, exercised, draw, increment, form, codes, 3, accounts, 3,
    numbers, 3, amounts, 6, total, further) = 0)
    and (total = 355) and (further = 7) and (CompareDWord(amounts, AMOUNTS_OF_TENS, 6) = 0));
  bytes := StringOfChar('x', 100);
  See('write an increment', (dilbreth_write(method, exercised, draw, increment, form, codes, 3, accounts, 3,
    numbers, 3, PByte(bytes), Length(bytes), written) = 0)
    and (First(written) = TENS) and (bytes[written + 1] = 'x'));
  See('change by tens', (Change(TENS, 100) = 0) and (First(written) = TENS_LASTS) and (bytes[written + 1] = 'x'));
  series := TENS_LASTS;
  See('respond by tens', (dilbreth_respond(PByte(series), Length(series), PByte(bytes), Length(bytes),
    written) = 0) and (First(written) = TENS_ASSIGNED));
  See('allocate refuses 23 for 0, also where S equals T', dilbreth_allocate(method, 355, 0, 0, form, codes, 3,
    accounts, 3, numbers, 3, amounts, 6, total, further) = 23);
  See('allocate refuses 23 for 1,001', dilbreth_allocate(method, exercised, draw, 1001, form, codes, 3, accounts, 3,
    numbers, 3, amounts, 6, total, further) = 23);
  numbers[1] := 1000000;
  See('allocate refuses 24', dilbreth_allocate(method, 1000001, draw, 1, form, codes, 3, accounts, 3, numbers, 3,
    amounts, 6, total, further) = 24);
  See('read codes again', ReadText(A_CODED) = 0);
  accounts[2] := 500;
  See('allocate refuses 19', dilbreth_allocate(method, exercised, draw, increment, form, codes, 3, accounts, 3,
    numbers, 3, amounts, 6, total, further) = 19);
  SeeLayout;
  SeeBook;
  SeeMerge;
  See('investor X', (Investor(DILBRETH_ORDINARY_DAY, 15, 0, 20, 0, 0, 10, 35) = 0) and After(35, 0, 10));
  See('investor X, final day', (Investor(DILBRETH_FINAL_DAY, 15, 0, 20, 0, 0, 10, 25) = 0) and After(25, 0, 0));
  See('investor Y', (Investor(DILBRETH_ORDINARY_DAY, 0, 20, 20, 0, 0, 0, 0) = 0) and After(20, 20, 20));
  See('investor Y, final day', (Investor(DILBRETH_FINAL_DAY, 0, 20, 20, 0, 0, 0, 0) = 0) and After(0, 0, 0));
  See('investor, seven counts', (Investor(DILBRETH_ORDINARY_DAY, 1000, 200, 30, 4, 5, 60, 700) = 0)
    and After(1030, 270, 199));
  See('investor, seven counts, day 65536', (Investor(65536, 1000, 200, 30, 4, 5, 60, 700) = 0) and After(771, 71, 0));
  See('investor, all of the short closed', (Investor(DILBRETH_ORDINARY_DAY, 1000, 200, 30, 4, 204, 400, 700) = 0)
    and After(1030, 0, 70));
  See('investor, left short, final day', (Investor(DILBRETH_FINAL_DAY, 0, 200, 30, 4, 5, 60, 0) = 0)
    and After(0, 0, 229));
  See('investor refuses 16', (Investor(DILBRETH_ORDINARY_DAY, 0, 0, 0, 0, 1, 0, 10000001) = 16)
    and After(999, 998, 997));
  See('investor refuses 17', (Investor(DILBRETH_FINAL_DAY, 0, 2, 0, 3, 6, 9, 1) = 17) and After(999, 998, 997));
  See('investor refuses 18', (Investor(DILBRETH_ORDINARY_DAY, 15, 0, 20, 0, 0, 10, 36) = 18)
    and After(999, 998, 997));
  See('investor refuses 18 on day 2', (Investor(2, 15, 0, 20, 0, 0, 10, 26) = 18) and After(999, 998, 997));
  See('market-maker Z', (MarketMaker(DILBRETH_ORDINARY_DAY, 0, 100, 100, 100) = 0) and (limit = 100));
  See('market-maker Z, final day', (MarketMaker(DILBRETH_FINAL_DAY, 0, 100, 100, 100) = 0) and (limit = 0));
  See('market-maker, four counts, day 2', (MarketMaker(2, 1000, 20, 300, 4) = 0) and (limit = 1276));
  See('market-maker refuses 16', (MarketMaker(DILBRETH_ORDINARY_DAY, 0, 0, 0, 10000001) = 16) and (limit = 999));
  See('explain', First(dilbreth_explain(9, PByte(bytes), Length(bytes)))
    = 'more is exercised than the positions hold'#10);
  See('explain 21', First(dilbreth_explain(21, PByte(bytes), Length(bytes)))
    = 'there are more than 64 jobs'#10);
  See('explain 22', First(dilbreth_explain(22, PByte(bytes), Length(bytes)))
    = 'a stretch ends past the list or begins too early'#10);
  See('explain 23', First(dilbreth_explain(23, PByte(bytes), Length(bytes)))
    = 'the increment is 0 or above 1,000 (W)'#10);
  WriteLn('Pascal: ', wrong, ' wrong');
  if wrong > 0 then
    Halt(1);
end.
