// The same questions by the exact simplex of the Parma Polyhedra Library: g++ -O2 ppl.cc -lppl -lgmpxx -lgmp
// Reads standard input as main.txt does, and prints the time of each list. Each case is a problem of its own.
#include <ppl.hh>
#include <algorithm>
#include <chrono>
#include <iostream>
#include <map>
#include <sstream>
#include <string>
#include <vector>

using namespace Parma_Polyhedra_Library;

struct Case {
  Constraint_System rows;
  Linear_Expression objective;
  dimension_type columns = 0;
  bool has_objective = false;
};

static std::string trimmed(const std::string& s) {
  size_t a = s.find_first_not_of(" \n"), b = s.find_last_not_of(" \n");
  return a == std::string::npos ? "" : s.substr(a, b - a + 1);
}

static std::vector<std::string> parts(const std::string& s, char by) {
  std::vector<std::string> made;
  std::stringstream in(s);
  for (std::string part; std::getline(in, part, by);) made.push_back(part);
  return made;
}

// A monomial is one unknown, whatever its degree.
static Linear_Expression poly(const std::string& text, std::map<std::string, dimension_type>& names) {
  Linear_Expression made;
  std::stringstream in(text);
  int sign = 1;
  for (std::string term; in >> term;) {
    if (term == "+") { sign = 1; continue; }
    if (term == "-") { sign = -1; continue; }
    if (term[0] == '-') { sign = -sign; term = term.substr(1); }
    size_t digits = term.find_first_not_of("0123456789");
    Coefficient number = 1;
    std::string name = term;
    if (digits != 0) {
      number = Coefficient(term.substr(0, digits).c_str());
      name = digits == std::string::npos ? "" : term.substr(digits + 1);
    }
    if (sign < 0) number = -number;
    if (name.empty()) made += number;
    else {
      auto found = names.emplace(name, names.size()).first;
      made += number * Variable(found->second);
    }
    sign = 1;
  }
  return made;
}

static Case one(const std::string& text) {
  Case made;
  std::map<std::string, dimension_type> names;
  auto halves = parts(text, ':');
  for (const auto& part : parts(halves.at(0), ';')) {
    std::string row = trimmed(part);
    if (row.empty()) continue;
    bool most = row.find("<=") != std::string::npos;
    Linear_Expression left = poly(row.substr(0, row.find(most ? "<=" : "=")), names);
    made.rows.insert(most ? left <= 0 : left == 0);
  }
  made.has_objective = halves.size() > 1;
  if (made.has_objective) made.objective = poly(halves[1], names);
  made.columns = names.size();
  return made;
}

int main() {
  std::stringstream all;
  all << std::cin.rdbuf();
  std::string text = all.str();
  std::vector<std::vector<std::vector<Case>>> lists(1);
  for (const auto& line : parts(text, '\n')) {
    if (line.empty()) { lists.emplace_back(); continue; }
    lists.back().emplace_back();
    for (const auto& part : parts(line, '%')) lists.back().back().push_back(one(part));
  }
  for (const auto& list : lists)
    for (int turn = 0; turn < 3; turn++) {
      size_t most = 0, least = 0;
      auto start = std::chrono::steady_clock::now();
      std::vector<long> times;
      for (const auto& question : list) {
        auto begin = std::chrono::steady_clock::now();
        bool bounded = true;
        for (const auto& c : question) {
          MIP_Problem problem(c.columns);
          problem.add_constraints(c.rows);
          if (!c.has_objective) { bounded = !problem.is_satisfiable(); break; }
          problem.set_objective_function(c.objective);
          problem.set_optimization_mode(MAXIMIZATION);
          if (problem.solve() != OPTIMIZED_MIP_PROBLEM) { bounded = false; break; }
          Coefficient num, den;
          problem.optimal_value(num, den);
        }
        (bounded ? most : least)++;
        times.push_back(std::chrono::duration_cast<std::chrono::nanoseconds>(std::chrono::steady_clock::now() - begin).count());
      }
      auto took = std::chrono::duration_cast<std::chrono::microseconds>(std::chrono::steady_clock::now() - start).count();
      std::cout << list.size() << " questions: " << most << " refuted or bounded, " << least << " not, " << took << " us";
      std::sort(times.begin(), times.end());
      size_t count = times.size();
      for (size_t place : {count / 2, count - count / 100 - 1, count - 1}) std::cout << (place == count / 2 ? "; " : ", ") << times[place] << " ns";
      std::cout << "\n";
    }
}
