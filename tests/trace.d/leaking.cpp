// A server of about twenty sites: its pages hold the peak, its sessions grow without an end, and
// its names are never freed.
#include <cstdlib>
#include <cstring>
#include <map>
#include <memory>
#include <string>
#include <vector>

namespace shop {

struct Session {
    std::string user, address, token;
    std::vector<int> asked;
};

struct Page {
    std::vector<char> body;
    std::string title;
};

struct Request {
    std::string verb, path, agent;
    std::map<std::string, std::string> headers;
};

class Pages {
public:
    const Page &render(int number);

private:
    std::map<int, std::unique_ptr<Page>> kept;
};

class Sessions {
public:
    Session &open(int number);

private:
    std::vector<std::unique_ptr<Session>> all;
};

class Orders {
public:
    void place(int number);
    void close();

private:
    std::vector<std::string> lines;
    std::unique_ptr<char[]> buffer;
};

const Page &Pages::render(int number)
{
    std::unique_ptr<Page> &page = kept[number % 40];
    if (!page) {
        page = std::make_unique<Page>();
        page->body.resize(4000);
        page->title = "A page of the shop, and its number is " + std::to_string(number);
    }
    return *page;
}

Session &Sessions::open(int number)
{
    // Never closed: the sessions of a day grow.
    auto session = std::make_unique<Session>();
    session->user = "a user whose name is long enough for the heap " + std::to_string(number);
    session->address = "an address that is long enough for the heap";
    session->token = std::string(40, 'x');
    session->asked.push_back(number);
    all.push_back(std::move(session));
    return *all.back();
}

void Orders::place(int number)
{
    if (!buffer) {
        buffer = std::make_unique<char[]>(50000);
    }
    lines.push_back("an order of a good many things, number " + std::to_string(number));
    if (lines.size() > 30) {
        close();
    }
}

void Orders::close()
{
    lines.clear();
    lines.shrink_to_fit();
}

static Request parse_request(int number)
{
    Request request;
    request.verb =
        number % 3 ? "GET, with a remark that is long" : "PUT, with a remark that is long";
    request.path = "/goods/and/their/numbers/" + std::to_string(number);
    request.agent = "a browser of some age, and of some length";
    request.headers["Host, with a remark that is long"] = "shop.example, and a remark that is long";
    request.headers["Accept, with a remark that is long"] = "text/html, and a remark that is long";
    return request;
}

static char *remember_name(int number)
{
    // Never freed, and by nobody held.
    char *name = strdup("a name that nobody frees");
    name[0] = static_cast<char>('a' + number % 26);
    return name;
}

static std::vector<int> load_prices() { return std::vector<int>(3000, 7); }

static int serve(int count)
{
    Pages pages;
    auto sessions = new Sessions;
    Orders orders;
    std::vector<int> prices = load_prices();
    int sum = 0;
    for (int number = 0; number < count; number++) {
        Request request = parse_request(number);
        sum += static_cast<int>(request.path.size() + pages.render(number).body.size())
               + prices[number % 3000];
        orders.place(number);
        if (number % 4 == 0) {
            sum += static_cast<int>(sessions->open(number).user.size());
        }
        if (number % 10 == 0) {
            sum += remember_name(number)[0];
        }
    }
    delete sessions;
    return sum;
}

} // namespace shop

int main() { return shop::serve(800) == 0; }
